/* Reads lines `KIND BYTES` from standard input, a number of DBUS_WIRE_TEXT_ and hexadecimal digits,
 * and writes for each what dbus_wire_text_check says of these bytes: `accepted`, `bad OFFSET`,
 * `too long` or `no kind`. */
#include <dbus_wire.h>

#include <stdio.h>
#include <stdlib.h>
#include <string.h>

/* The bytes that the digits spell, at the start of their own place. */
static size_t read_digits(char *digits) {
    size_t count = strspn(digits, "0123456789abcdef") / 2, at;
    for (at = 0; at < count; at++) {
        char two[3] = {digits[2 * at], digits[2 * at + 1], 0};
        digits[at] = (char)strtoul(two, NULL, 16);
    }
    return count;
}

int main(void) {
    static char line[1 << 16];
    while (fgets(line, sizeof line, stdin) != NULL) {
        char *digits;
        uint32_t kind = (uint32_t)strtoul(line, &digits, 10);
        size_t count = read_digits(++digits);
        struct dbus_wire_text_checked told;
        uint8_t *bytes = malloc(count);

        /* A block of their size alone, past which AddressSanitizer lets nothing be read. */
        if (bytes == NULL && count > 0) return 3;
        if (count > 0) memcpy(bytes, digits, count);
        switch (dbus_wire_text_check(kind, bytes, count, &told)) {
        case DBUS_WIRE_OK: printf("accepted\n"); break;
        case DBUS_WIRE_NO_KIND: printf("no kind\n"); break;
        default:
            if (told.is_too_long)
                printf("too long\n");
            else
                printf("bad %llu\n", (unsigned long long)told.offset);
        }
        free(bytes);
    }
    return 0;
}
