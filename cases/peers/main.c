/* Answers on each line what the peer says to the question on that line (cases/README.md), of those that it knows: `message BYTES`
 * and `again BYTES`. Each is answered in a process of its own: if that is stopped, the answer is `aborted`. */
#define _GNU_SOURCE
#include <stdio.h>
#include <stdlib.h>
#include <string.h>
#include <sys/wait.h>
#include <unistd.h>

#include "peer.h"

static const unsigned SECONDS = 10;

/* Puts the bytes in the place of their digits. */
static size_t read_digits(char *text) {
    size_t size = strlen(text) / 2;
    for (size_t at = 0; at < size; at++) {
        char pair[3] = {text[2 * at], text[2 * at + 1], 0};
        text[at] = (char)strtoul(pair, NULL, 16);
    }
    return size;
}

static void write_again(const unsigned char *bytes, size_t size) {
    size_t length = 0;
    unsigned char *data = again ? again(bytes, size, &length) : NULL;
    for (size_t at = 0; data && at < length; at++)
        printf("%02x", data[at]);
    puts(data ? "" : "?");
}

static void answer(const char *kind, const unsigned char *bytes, size_t size) {
    struct said said = {0, ""};
    enum answer is;
    alarm(SECONDS);
    if (!strcmp(kind, "again")) {
        write_again(bytes, size);
        return;
    }
    is = judge(bytes, size, &said);
    said.why[strcspn(said.why, "\n")] = 0;
    if (is == WHOLE)
        printf("whole %zu\n", said.length);
    else if (is == PARTIAL)
        puts("partial");
    else
        printf("no: %s\n", said.why);
}

int main(void) {
    char *line = NULL;
    size_t room = 0;
    while (getline(&line, &room, stdin) > 0) {
        char *digits = strchr(line, ' ');
        int status = 0;
        pid_t child;
        line[strcspn(line, "\n")] = 0;
        if (digits)
            *digits++ = 0;
        if (!digits || strchr(digits, ' ') || (strcmp(line, "message") && strcmp(line, "again"))) {
            puts("?");
            continue;
        }
        fflush(stdout);
        child = fork();
        if (child < 0)
            return 1;
        if (child == 0) {
            size_t size = read_digits(digits);
            answer(line, (unsigned char *)digits, size);
            fflush(stdout);
            _exit(0);
        }
        if (waitpid(child, &status, 0) < 0 || !WIFEXITED(status))
            puts("aborted");
    }
    free(line);
    return 0;
}
