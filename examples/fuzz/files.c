/* files NUMBER FILE..: tries each message in the files, what is after the last one, and NUMBER
 * copies of each that are changed at random, without libFuzzer. The changes are the same in every
 * run. Prints how many inputs there were. */
#include "fuzz.h"

#include <dbus_wire.h>

#include <stdio.h>
#include <stdlib.h>
#include <string.h>

enum { MOST = 1 << 20 };

static unsigned long inputs = 0;

static void try_bytes(const uint8_t *bytes, size_t length) {
    LLVMFuzzerTestOneInput(bytes, length);
    inputs++;
}

/* A random number below a bound that is not 0. */
static size_t below(size_t bound) {
    static uint64_t state = 88172645463325252u;
    state ^= state << 13, state ^= state >> 7, state ^= state << 17;
    return (size_t)(state % bound);
}

/* Up to three bytes are changed, and one copy in eight is cut short. */
static void try_changed(const uint8_t *bytes, size_t length) {
    static uint8_t changed[MOST];
    size_t times;
    memcpy(changed, bytes, length);
    for (times = 1 + below(3); times > 0; times--) {
        uint8_t *byte = &changed[below(length)];
        *byte = (uint8_t)(below(2) ? below(256) : *byte ^ 1u << below(8));
    }
    try_bytes(changed, below(8) == 0 ? below(length) : length);
}

static void try_file(const uint8_t *bytes, size_t count, unsigned long changes) {
    struct dbus_wire_checked told;
    size_t at = 0, length;
    do {
        int is_whole = dbus_wire_check(bytes + at, count - at, NULL, &told) == DBUS_WIRE_WHOLE;
        unsigned long number;
        length = is_whole ? told.length : count - at;
        try_bytes(bytes + at, length);
        for (number = 0; length > 0 && number < changes; number++) try_changed(bytes + at, length);
        at += length;
    } while (at < count);
}

int main(int count_of_words, char **words) {
    static uint8_t bytes[MOST];
    int word;
    if (count_of_words < 2) return 2;
    for (word = 2; word < count_of_words; word++) {
        FILE *file = fopen(words[word], "rb");
        if (file == NULL) return perror(words[word]), 2;
        try_file(bytes, fread(bytes, 1, sizeof bytes, file), strtoul(words[1], NULL, 10));
        fclose(file);
    }
    printf("%lu inputs tried\n", inputs);
    return 0;
}
