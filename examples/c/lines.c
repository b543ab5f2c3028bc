/* Lists what one side sent in the handshake, from standard input: `lines client` or `lines server`.
 * Each line is its length, its command and its words with one space between them; the last one says
 * why no further line begins there, and how many bytes are left. A client's lines end with BEGIN,
 * and messages follow. It takes no memory. */
#include <dbus_wire.h>

#include <stdio.h>
#include <string.h>

static const char *const commands[] = {"other", "AUTH", "CANCEL", "BEGIN", "DATA", "ERROR", "NEGOTIATE_UNIX_FD", "REJECTED", "OK", "AGREE_UNIX_FD"};

static void print_text(const uint8_t *bytes, size_t length) {
    putchar(' ');
    fwrite(bytes, 1, length, stdout);
}

/* The mechanisms that a server offers. */
static void print_words(const uint8_t *bytes, size_t length) {
    size_t at = 0, start;
    for (;;) {
        while (at < length && bytes[at] == ' ') at++;
        if (at == length) return;
        start = at;
        while (at < length && bytes[at] != ' ') at++;
        print_text(bytes + start, at - start);
    }
}

static void print_line(const uint8_t *bytes, const struct dbus_wire_line *line) {
    printf("%llu %s", (unsigned long long)line->length, commands[line->command]);
    if (line->mechanism.is_there) print_text(bytes + line->mechanism.offset, (size_t)line->mechanism.length);
    if (line->command == DBUS_WIRE_LINE_REJECTED)
        print_words(bytes + line->text.offset, (size_t)line->text.length);
    else if (line->text.is_there)
        print_text(bytes + line->text.offset, (size_t)line->text.length);
    putchar('\n');
}

/* What comes after the last line. */
static void print_rest(uint32_t answer, const struct dbus_wire_line *line, size_t left) {
    if (answer == DBUS_WIRE_WHOLE)
        printf("messages");
    else if (answer == DBUS_WIRE_PARTIAL)
        printf("partial");
    else if (line->is_too_long)
        printf("too long");
    else
        printf("bad byte %llu", (unsigned long long)line->offset);
    printf(", %lu bytes left\n", (unsigned long)left);
}

int main(int argc, char **argv) {
    static uint8_t bytes[1 << 16];
    size_t length = fread(bytes, 1, sizeof bytes, stdin), at;
    int is_client = argc == 2 && strcmp(argv[1], "client") == 0;
    struct dbus_wire_line line;
    uint32_t answer;
    if (!is_client && (argc != 2 || strcmp(argv[1], "server") != 0)) return 2;
    /* The byte 0 comes before a client's first line. */
    at = is_client && length > 0 && bytes[0] == 0;
    do {
        answer = is_client ? dbus_wire_client_line(bytes + at, length - at, &line) : dbus_wire_server_line(bytes + at, length - at, &line);
        if (answer != DBUS_WIRE_WHOLE) break;
        print_line(bytes + at, &line);
        at += (size_t)line.length;
    } while (!is_client || line.command != DBUS_WIRE_LINE_BEGIN);
    print_rest(answer, &line, length - at);
    return answer == DBUS_WIRE_REFUSED;
}
