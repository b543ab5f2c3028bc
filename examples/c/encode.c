/* Writes the message of each line of JSON on standard input, as `dbus-wire encode --keep-going`
 * does, and says of each other line that is not blank why it spells none. The exit status is 1 if
 * one spells none, and 3 if memory runs out. The room for messages grows to the longest. */
#define _POSIX_C_SOURCE 200809L
#include <dbus_wire.h>

#include <stdio.h>
#include <stdlib.h>
#include <string.h>
#include <sys/types.h>

static uint8_t *message = NULL;
static size_t room = 0;

/* Reads the line of this length, whose message has this serial if the line tells none. */
static uint32_t read_line(const char *line, size_t length, uint32_t serial, struct dbus_wire_checked *told) {
    uint32_t answer = dbus_wire_from_json(line, length, NULL, serial, message, room, told);

    if (answer == DBUS_WIRE_NO_ROOM) {
        uint8_t *more = realloc(message, told->length);
        if (more == NULL) return DBUS_WIRE_NO_MEMORY;
        message = more;
        room = told->length;
        answer = dbus_wire_from_json(line, length, NULL, serial, message, room, told);
    }
    return answer;
}

static void print_refusal(unsigned long long number, const struct dbus_wire_checked *told) {
    uint8_t name[32];

    dbus_wire_reason_name(told->reason, name, sizeof name);
    fprintf(stderr, "refused at line %llu, column %llu: %s", number, (unsigned long long)told->offset + 1, (const char *)name);
    if (told->reason == DBUS_WIRE_REASON_FIELD_MISSING) fprintf(stderr, "(%u)", (unsigned)told->field);
    fputc('\n', stderr);
}

int main(void) {
    struct dbus_wire_checked told;
    char *line = NULL;
    size_t size = 0;
    ssize_t length;
    unsigned long long number = 0;
    uint32_t serial = 1, answer = DBUS_WIRE_OK;
    int status = 0;

    while (answer != DBUS_WIRE_NO_MEMORY && (length = getline(&line, &size, stdin)) > 0) {
        number++;
        if (line[length - 1] == '\n') length--;
        if (strspn(line, " \t\r\n") >= (size_t)length) continue;
        answer = read_line(line, (size_t)length, serial++, &told);
        if (answer == DBUS_WIRE_OK) fwrite(message, 1, told.length, stdout);
        if (answer == DBUS_WIRE_REFUSED) print_refusal(number, &told), status = 1;
    }
    free(line);
    free(message);
    return answer == DBUS_WIRE_NO_MEMORY || !feof(stdin) ? 3 : status;
}
