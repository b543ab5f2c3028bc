/* What is tried of bytes: that the other parser says of them what dbus_wire_check says, and that
 * the library's calls agree. */
#define _DEFAULT_SOURCE
#include "fuzz.h"

#include <dbus_wire.h>

#include <stdio.h>
#include <stdlib.h>
#include <string.h>
#include <sys/mman.h>
#include <unistd.h>

/* Longer inputs are not tried. */
enum { MOST = 1 << 20 };
/* How many items are read at once. */
enum { ROOM = 1 << 12 };

static void expect(int holds, const char *what) {
    if (holds) return;
    fprintf(stderr, "it does not hold: %s\n", what);
    abort();
}

/* MOST bytes, and after them some that cannot be read. */
static uint8_t *fenced(void) {
    static uint8_t *room = NULL;
    if (room == NULL) {
        size_t page = (size_t)sysconf(_SC_PAGESIZE);
        void *mapped = mmap(NULL, MOST + page, PROT_READ | PROT_WRITE, MAP_PRIVATE | MAP_ANONYMOUS, -1, 0);
        expect(mapped != MAP_FAILED, "there is memory");
        room = mapped;
        expect(mprotect(room + MOST, page, PROT_NONE) == 0, "a page can be closed");
    }
    return room;
}

/* What libFuzzer takes for new, beside code that is compiled for it: the library's is not. */
__attribute__((section("__libfuzzer_extra_counters"))) static uint8_t counters[1 << 14];

static void count(uint32_t one, uint32_t other) {
    uint8_t *counter = &counters[(one * 64 + other % 64) % sizeof counters];
    *counter = (uint8_t)(*counter + (*counter < 255));
}

/* Whether both say the same, as far as the other parser says it. */
static int agree(uint32_t ours, uint32_t theirs) {
    if (theirs == THEIRS_UNCOMPARED) return 1;
    return theirs == THEIRS_NOT_WHOLE ? ours != DBUS_WIRE_WHOLE : ours == theirs;
}

static void compare(const uint8_t *bytes, size_t length, uint32_t ours, const struct dbus_wire_checked *told) {
    uint32_t theirs = their_check(bytes, length);
    if (agree(ours, theirs)) return;
    fprintf(stderr, "the answer here is %u, theirs %u\n", (unsigned)ours, (unsigned)theirs);
    if (ours == DBUS_WIRE_REFUSED)
        fprintf(stderr, "here, at %llu: %s\n", (unsigned long long)told->offset, dbus_wire_reason_text(told->reason));
    abort();
}

/* What a walk has seen: how many values, and a sum of their types, numbers and texts. */
struct seen {
    size_t count;
    uint64_t sum;
};

static void add(struct seen *seen, uint64_t number) { seen->sum = (seen->sum ^ number) * 1099511628211u + 1; }

static void add_value(struct seen *seen, uint32_t code, uint64_t number, const uint8_t *bytes, uint64_t length) {
    uint64_t at;
    seen->count++;
    add(seen, code);
    add(seen, number);
    if (code == 's' || code == 'o' || code == 'g')
        for (at = 0; at < length; at++) add(seen, bytes[at]);
}

typedef uint32_t flatten_call(const void *, size_t, const struct dbus_wire_limits *, size_t, struct dbus_wire_flat_item *, size_t,
                              uint64_t *, struct dbus_wire_checked *);

/* Goes over all items of a part of a message. Each has a place among the bytes, and what is within
 * it comes after it. */
static void walk(flatten_call *flatten, const uint8_t *bytes, size_t length, struct seen *seen) {
    static struct dbus_wire_flat_item items[ROOM];
    uint64_t first, at, all;
    uint32_t answer = DBUS_WIRE_NO_ROOM;
    for (first = 0; answer == DBUS_WIRE_NO_ROOM; first += ROOM) {
        answer = flatten(bytes, length, NULL, first, items, ROOM, &all, NULL);
        expect(answer == (all > first + ROOM ? DBUS_WIRE_NO_ROOM : DBUS_WIRE_WHOLE), "a message has items");
        for (at = first; at < all && at < first + ROOM; at++) {
            const struct dbus_wire_flat_item *item = &items[at - first];
            count(item->code, item->element);
            expect(item->offset <= length && item->length <= length - item->offset, "an item is among the bytes");
            expect(strchr("a({v", (int)item->code) == NULL || item->number < all - at, "what is within it comes after it");
            add_value(seen, item->code, item->number, bytes + item->offset, item->length);
        }
    }
}

/* What a message has: its header fields and the values of its body. */
static struct seen walk_message(const uint8_t *bytes, size_t length) {
    struct seen seen = {0, 0};
    walk(dbus_wire_flatten_fields, bytes, length, &seen);
    walk(dbus_wire_flatten, bytes, length, &seen);
    return seen;
}

static void try_pieces(const uint8_t *bytes, size_t length, uint32_t answer, const struct dbus_wire_checked *told) {
    struct dbus_wire_checker checker = {0};
    struct dbus_wire_taken taken;
    size_t first = length == 0 ? 0 : bytes[length / 2] % length;
    uint32_t given;
    expect(dbus_wire_checker_new(NULL, &checker) == DBUS_WIRE_OK, "there is memory for a checker");
    given = dbus_wire_checker_take(&checker, bytes, first, &taken);
    if (given == DBUS_WIRE_PARTIAL) {
        given = dbus_wire_checker_take(&checker, bytes + first, length - first, &taken);
        taken.count += first;
    }
    dbus_wire_checker_free(&checker);
    expect(given == answer, "a checker answers of pieces what dbus_wire_check answers");
    expect(answer != DBUS_WIRE_WHOLE || taken.count == told->length, "and takes the message");
    expect(answer != DBUS_WIRE_REFUSED || (taken.offset == told->offset && taken.reason == told->reason && taken.field == told->field),
           "and returns its fault");
}

/* The message in the other byte order has the same fields and values, and in its own the same
 * bytes. */
static void try_message(const uint8_t *bytes, size_t length, const struct dbus_wire_checked *message) {
    static uint8_t swapped[MOST], again[MOST];
    struct dbus_wire_checked told;
    struct dbus_wire_parts parts;
    struct seen here = walk_message(bytes, length), there;
    uint32_t other = message->order == 'l' ? 'B' : 'l';

    expect(dbus_wire_parts_of(bytes, length, NULL, &parts, NULL) == DBUS_WIRE_WHOLE, "a message has parts");
    expect(parts.length == message->length && parts.body <= parts.length && parts.order == message->order, "its parts are its own");
    expect(dbus_wire_wanted(bytes, length, NULL) == message->length, "the first 16 bytes state the length");
    expect(dbus_wire_swap(bytes, length, NULL, other, swapped, MOST, &told) == DBUS_WIRE_WHOLE, "a message is swapped");
    there = walk_message(swapped, message->length);
    expect(here.count == there.count && here.sum == there.sum, "a swapped message has the same values");
    expect(dbus_wire_swap(swapped, message->length, NULL, message->order, again, MOST, &told) == DBUS_WIRE_WHOLE, "and back");
    expect(memcmp(again, bytes, message->length) == 0, "which gives the same bytes");
}

/* Each call that takes a message apart says of any bytes what dbus_wire_check does. */
static void try_told(const uint8_t *bytes, size_t length, uint32_t answer, const struct dbus_wire_checked *told) {
    static struct dbus_wire_flat_item items[ROOM], same[ROOM];
    struct dbus_wire_parts parts = {0}, all_parts = {0};
    struct dbus_wire_checked by_parts, by_items, by_all;
    uint64_t count = 0, all_count = 0;
    uint32_t flat = dbus_wire_flatten(bytes, length, NULL, 0, items, ROOM, &count, &by_items);
    expect(dbus_wire_parts_of(bytes, length, NULL, &parts, &by_parts) == answer, "the calls answer alike");
    expect(dbus_wire_read(bytes, length, NULL, &all_parts, same, ROOM, &all_count, &by_all) == flat, "and that of both");
    expect(flat == (count > ROOM ? DBUS_WIRE_NO_ROOM : answer) && count == all_count, "and that of items");
    expect(memcmp(&by_parts, told, sizeof *told) == 0 && memcmp(&by_items, told, sizeof *told) == 0 &&
               memcmp(&by_all, told, sizeof *told) == 0,
           "and tell the same");
    expect(memcmp(&parts, &all_parts, sizeof parts) == 0 && memcmp(items, same, sizeof items) == 0, "as they write the same");
}

/* The lines of a fault end where they say, and their parts are among them. */
static void try_explained(const uint8_t *bytes, size_t length, uint32_t answer, const struct dbus_wire_checked *told) {
    static uint8_t lines[ROOM];
    struct dbus_wire_explained explained = {0};
    static struct dbus_wire_flat_item items[ROOM];
    struct dbus_wire_checked by_lines;
    struct dbus_wire_whole_count count = {0, 0};
    uint64_t at;
    uint32_t given = dbus_wire_explain(bytes, length, NULL, NULL, lines, ROOM, &explained, &by_lines);
    expect(memcmp(&by_lines, told, sizeof *told) == 0, "an explanation tells the same");
    if (answer == DBUS_WIRE_REFUSED) {
        const struct dbus_wire_text *rule = &explained.rule, *name = &explained.name;
        expect(given == (explained.length < ROOM ? DBUS_WIRE_OK : DBUS_WIRE_NO_ROOM), "a fault is explained");
        expect(given == DBUS_WIRE_NO_ROOM || strlen((const char *)lines) == explained.length, "by lines that end in a 0");
        expect(dbus_wire_flatten_whole(bytes, length, NULL, 0, items, ROOM, &count, NULL) ==
                   (count.all > ROOM ? DBUS_WIRE_NO_ROOM : DBUS_WIRE_OK),
               "it has header fields and values before it, if any");
        for (at = 0; at < count.fields && count.all <= ROOM; at += items[at].number + 1)
            expect(items[at].code == '(' && items[at + 2].code == 'v' && items[at].offset < told->offset, "each field is whole");
        for (; at < count.all && count.all <= ROOM; at++)
            expect(items[at].offset + items[at].length <= told->offset, "each value is whole");
        expect(name->length > 0 && name->offset + name->length < rule->offset && rule->offset + rule->length < explained.length,
               "which have a name and a rule");
    } else {
        expect(given == (answer == DBUS_WIRE_WHOLE ? DBUS_WIRE_NO_VALUE : DBUS_WIRE_PARTIAL), "nothing else is explained");
    }
}

int LLVMFuzzerTestOneInput(const uint8_t *given, size_t length) {
    struct dbus_wire_checked told;
    uint8_t *bytes;
    uint32_t answer;
    if (length > MOST) return 0;
    bytes = fenced() + MOST - length;
    if (length > 0) memcpy(bytes, given, length);

    answer = dbus_wire_check(bytes, length, NULL, &told);
    count(128 + told.reason, (uint32_t)told.offset);
    if (their_check != NULL) compare(bytes, length, answer, &told);
    try_told(bytes, length, answer, &told);
    try_explained(bytes, length, answer, &told);
    try_pieces(bytes, length, answer, &told);
    if (answer == DBUS_WIRE_WHOLE) try_message(bytes, length, &told);
    return 0;
}
