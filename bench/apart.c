/* apart CALL: makes the call CALL of each message on standard input, in the function `measured`, whose instructions bench/apart.sh
 * counts. */
#include <dbus_wire.h>

#include <stdio.h>
#include <string.h>

enum { MOST = 1 << 24, ROOM = 1 << 16 };

static uint8_t bytes[MOST];
static struct dbus_wire_parts parts;
static struct dbus_wire_flat_item items[ROOM];
static struct dbus_wire_checked told;
static uint64_t count;

static uint32_t check(const uint8_t *at, size_t length) { return dbus_wire_check(at, length, NULL, &told); }

static uint32_t parts_of(const uint8_t *at, size_t length) { return dbus_wire_parts_of(at, length, NULL, &parts, &told); }

static uint32_t flatten(const uint8_t *at, size_t length) {
    return dbus_wire_flatten(at, length, NULL, 0, items, ROOM, &count, &told);
}

static uint32_t read_all(const uint8_t *at, size_t length) {
    return dbus_wire_read(at, length, NULL, &parts, items, ROOM, &count, &told);
}

static uint32_t json(const uint8_t *at, size_t length) {
    static uint8_t line[4 * MOST];
    return dbus_wire_json(at, length, NULL, NULL, line, sizeof line, &count, &told);
}

static const struct {
    const char *name;
    uint32_t (*call)(const uint8_t *, size_t);
} CALLS[] = {{"check", check}, {"parts_of", parts_of}, {"flatten", flatten}, {"read", read_all}, {"json", json}};

/* Whether each message is whole, up to the end. */
__attribute__((noinline)) int measured(uint32_t (*call)(const uint8_t *, size_t), size_t length) {
    size_t at = 0;
    while (at < length && call(bytes + at, length - at) == DBUS_WIRE_WHOLE) at += (size_t)told.length;
    return at == length;
}

int main(int count_of_words, char **words) {
    size_t i, length = fread(bytes, 1, sizeof bytes, stdin);
    for (i = 0; count_of_words == 2 && i < sizeof CALLS / sizeof *CALLS; i++)
        if (strcmp(words[1], CALLS[i].name) == 0) return !measured(CALLS[i].call, length);
    return 2;
}
