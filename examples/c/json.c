/* Writes each D-Bus message on standard input as a line of JSON, as `dbus-wire json` does. The room
 * for lines grows to the longest. */
#include <dbus_wire.h>

#include <stdio.h>
#include <stdlib.h>

static uint8_t *line = NULL;
static size_t room = 0;

/* Writes the line of the message at this place. Returns how many bytes the message has, or 0 if
 * there is none, or no memory for its line. */
static uint64_t write_line(const uint8_t *bytes, size_t length, const struct dbus_wire_line_place *place) {
    struct dbus_wire_checked told;
    uint64_t count;
    uint32_t answer = dbus_wire_json(bytes, length, NULL, place, line, room, &count, &told);

    if (answer == DBUS_WIRE_NO_ROOM) {
        uint8_t *more = realloc(line, count + 1);
        if (more == NULL) return 0;
        line = more;
        room = count + 1;
        answer = dbus_wire_json(bytes, length, NULL, place, line, room, &count, &told);
    }
    if (answer != DBUS_WIRE_WHOLE) return 0;
    fwrite(line, 1, count, stdout);
    return told.length;
}

int main(void) {
    static uint8_t bytes[1 << 20];
    struct dbus_wire_line_place place = {1, 0, 0, 0};
    size_t count = fread(bytes, 1, sizeof bytes, stdin);
    uint64_t length;

    while (place.offset < count && (length = write_line(bytes + place.offset, count - place.offset, &place)) > 0) {
        place.offset += length;
        place.number++;
    }
    free(line);
    return place.offset < count;
}
