/* Swaps each D-Bus message on standard input into fewer bytes than it has, into as many and into
 * more: DBUS_WIRE_NO_ROOM leaves the bytes as they were, and else those after the message stay as
 * they were. Writes each as a line of JSON into too little room for the line, and into enough, and
 * the message of that line into each room.
 * Flattens each from every place of its row on, with less room than the items have, as much and
 * more, and compares each piece with the whole row. Prints how many messages there are. */
#include <dbus_wire.h>

#include <stdio.h>
#include <string.h>

/* How many bytes more than the message has are tried, and what each byte holds before a call. */
enum { MORE = 9, BEFORE = 0xAA };

static struct dbus_wire_limits limits;

/* Whether the message is answered and written as it should be, if there are `room` bytes for it. */
static int is_right(const uint8_t *bytes, const struct dbus_wire_checked *message, uint32_t order, size_t room) {
    static uint8_t out[1 << 20];
    struct dbus_wire_checked told;
    size_t at = 0, written = 0;

    if (room >= sizeof out) return 0;
    memset(out, BEFORE, room + 1);
    if (dbus_wire_swap(bytes, message->length, &limits, order, out, room, &told) == DBUS_WIRE_WHOLE) {
        written = message->length;
        if (out[0] != order || (memcmp(out, bytes, written) == 0) != (order == message->order)) return 0;
    }
    for (at = written; at <= room; at++)
        if (out[at] != BEFORE) return 0;
    return (written > 0) == (room >= message->length) && told.length == message->length && told.order == message->order;
}

/* Whether its line is, whose front is there if there is too little room. */
static int is_line(const uint8_t *bytes, const struct dbus_wire_checked *message, size_t room) {
    static const struct dbus_wire_line_place place = {7, 99, 5, 1};
    static uint8_t line[1 << 20], out[1 << 20];
    struct dbus_wire_checked told;
    uint64_t whole, count;
    size_t at, written;
    uint32_t answer;

    if (room >= sizeof out || dbus_wire_json(bytes, message->length, NULL, &place, line, sizeof line, &whole, NULL) != DBUS_WIRE_WHOLE)
        return 0;
    written = room <= whole ? room : whole + 1;
    memset(out, BEFORE, room + 1);
    answer = dbus_wire_json(bytes, message->length, NULL, &place, out, room, &count, &told);
    for (at = written; at <= room; at++)
        if (out[at] != BEFORE) return 0;
    return answer == (room <= whole ? DBUS_WIRE_NO_ROOM : DBUS_WIRE_WHOLE) && count == whole && line[whole - 1] == '\n' && line[whole] == 0 &&
           memcmp(line, out, written) == 0 && told.length == message->length;
}

/* Whether the line of the message is read back into as many bytes of room. */
static int is_read(const uint8_t *bytes, const struct dbus_wire_checked *message, size_t room) {
    static uint8_t line[1 << 20], out[1 << 20];
    struct dbus_wire_checked told;
    uint64_t count;
    size_t at, written = room < message->length ? 0 : message->length;
    uint32_t answer = room < message->length ? DBUS_WIRE_NO_ROOM : DBUS_WIRE_OK;

    if (room >= sizeof out || dbus_wire_json(bytes, message->length, NULL, NULL, line, sizeof line, &count, NULL) != DBUS_WIRE_WHOLE)
        return 0;
    memset(out, BEFORE, room + 1);
    if (dbus_wire_from_json(line, (size_t)count, NULL, 0, out, room, &told) != answer) return 0;
    for (at = written; at <= room; at++)
        if (out[at] != BEFORE) return 0;
    return memcmp(out, bytes, written) == 0 && memcmp(&told, message, sizeof told) == 0;
}

/* The whole row of a message's items, and a piece of it. */
enum { MOST = 1 << 16 };
static struct dbus_wire_flat_item row[MOST], piece[MOST];

/* Whether the items from a place of the row on are written as they should be, if there is room for
 * `room` of them. */
static int is_piece(const uint8_t *bytes, size_t length, uint64_t count, uint64_t first, uint64_t room) {
    uint64_t told, left = first < count ? count - first : 0, written = left < room ? left : room;
    uint32_t answer = left <= room ? DBUS_WIRE_WHOLE : DBUS_WIRE_NO_ROOM;
    size_t at;
    if (room >= MOST) return 0;
    memset(piece, BEFORE, (room + 1) * sizeof *piece);
    if (dbus_wire_flatten(bytes, length, NULL, first, piece, room, &told, NULL) != answer || told != count) return 0;
    for (at = written * sizeof *piece; at < (room + 1) * sizeof *piece; at++)
        if (((const uint8_t *)piece)[at] != BEFORE) return 0;
    return written == 0 || memcmp(piece, row + first, written * sizeof *piece) == 0;
}

/* Whether the message is flattened as it should be. */
static int is_flat(const uint8_t *bytes, size_t length) {
    uint64_t first, room, count;
    if (dbus_wire_flatten(bytes, length, NULL, 0, row, MOST, &count, NULL) != DBUS_WIRE_WHOLE || count >= MOST) return 0;
    for (first = 0; first <= count + 1; first++)
        for (room = 0; room <= 4; room++)
            if (!is_piece(bytes, length, count, first, room)) return 0;
    return is_piece(bytes, length, count, 0, count) && is_piece(bytes, length, count, 0, count + 1) &&
           is_piece(bytes, length, count, SIZE_MAX, 1);
}

int main(void) {
    static uint8_t bytes[1 << 20];
    struct dbus_wire_checked message;
    size_t count = fread(bytes, 1, sizeof bytes, stdin), at = 0, room, messages = 0;

    dbus_wire_specification_limits(&limits);
    while (dbus_wire_check(bytes + at, count - at, &limits, &message) == DBUS_WIRE_WHOLE) {
        for (room = 0; room <= message.length + MORE; room++)
            if (!is_right(bytes + at, &message, 'l', room) || !is_right(bytes + at, &message, 'B', room) ||
                !is_line(bytes + at, &message, room * 4) || (room % 16 < 2 && !is_read(bytes + at, &message, room)))
                return 1;
        if (!is_flat(bytes + at, message.length) || !is_read(bytes + at, &message, message.length - 1) ||
            !is_read(bytes + at, &message, message.length))
            return 1;
        at += message.length;
        messages++;
    }
    printf("%zu messages swapped where there is room for them, and not where there is not\n", messages);
    return at < count || messages == 0;
}
