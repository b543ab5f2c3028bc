/* Writes the D-Bus messages on standard input in the byte order that the first word names, `l` or
 * `B`, as `dbus-wire swap --to` does. Each message has as many bytes as before. */
#include <dbus_wire.h>

#include <stdio.h>

int main(int count_of_words, char **words) {
    static uint8_t bytes[1 << 20], swapped[1 << 20];
    struct dbus_wire_limits limits;
    struct dbus_wire_checked told;
    size_t count = fread(bytes, 1, sizeof bytes, stdin), at = 0;
    uint32_t order = count_of_words > 1 ? (uint32_t)words[1][0] : 'l';

    dbus_wire_specification_limits(&limits);
    while (at < count && dbus_wire_swap(bytes + at, count - at, &limits, order, swapped, sizeof swapped, &told) == DBUS_WIRE_WHOLE) {
        fwrite(swapped, 1, told.length, stdout);
        at += told.length;
    }
    return at < count;
}
