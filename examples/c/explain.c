/* Explains the first of the D-Bus messages on standard input that is refused: prints the lines that
 * `dbus-wire check --explain` prints of it, and then, each in a line, their parts. */
#include <dbus_wire.h>

#include <stdio.h>
#include <stdlib.h>

/* The most bytes of standard input that are looked at, and what most explanations fit in. */
enum { MOST = 1 << 20, ROOM = 256 };

static uint8_t bytes[MOST];

/* Prints a part of the lines, or of the message, by its name. */
static void print_part(const char *name, const uint8_t *lines, const struct dbus_wire_text *part) {
    if (part->is_there) printf("%s: %.*s\n", name, (int)part->length, (const char *)lines + part->offset);
}

/* Explains the message at this place. The lines are as long as the message's header fields, so that
 * the first call may say how much room they need. */
static int explain(const uint8_t *message, size_t length, const struct dbus_wire_input_place *place, int parts) {
    struct dbus_wire_explained explained;
    size_t room = ROOM;
    uint8_t *lines = malloc(room);
    uint32_t answer = DBUS_WIRE_NO_MEMORY;

    while (lines != NULL) {
        answer = dbus_wire_explain(message, length, NULL, place, lines, room, &explained, NULL);
        if (answer != DBUS_WIRE_NO_ROOM) break;
        free(lines);
        room = explained.length + 1;
        lines = malloc(room);
    }
    if (answer == DBUS_WIRE_OK) {
        printf("%s", (const char *)lines);
        if (parts) {
            print_part("name", lines, &explained.name);
            print_part("head", lines, &explained.head);
            print_part("rule", lines, &explained.rule);
            if (explained.text.is_there)
                printf("text: %llu of stated length %llu\n", (unsigned long long)explained.text.offset,
                       (unsigned long long)explained.text.length);
        }
    }
    free(lines);
    return answer == DBUS_WIRE_OK ? 1 : answer == DBUS_WIRE_NO_MEMORY ? 3 : 0;
}

int main(int count, char **words) {
    size_t length = fread(bytes, 1, MOST, stdin);
    struct dbus_wire_input_place place = {1, 0};
    struct dbus_wire_checked told;

    (void)words;
    while (dbus_wire_check(bytes + place.offset, length - place.offset, NULL, &told) == DBUS_WIRE_WHOLE) {
        place.offset += told.length;
        place.number += 1;
    }
    return explain(bytes + place.offset, length - place.offset, &place, count > 1);
}
