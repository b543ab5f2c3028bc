/* What the programs share that hold peers against the cases. */
#ifndef PEER_H
#define PEER_H

#include <stddef.h>

enum answer { WHOLE, PARTIAL, REFUSED };

struct said {
    /* Of a whole message. */
    size_t length;
    /* Of bytes that are refused, the peer's own words, or "". */
    char why[512];
};

/* The length that the first 16 bytes of a message state. */
static inline size_t stated_length(const unsigned char *bytes) {
    size_t body = 0, fields = 0;
    for (size_t digit = 0; digit < 4; digit++) {
        size_t at = bytes[0] == 'B' ? digit : 3 - digit;
        body = body << 8 | bytes[4 + at];
        fields = fields << 8 | bytes[12 + at];
    }
    return 16 + (fields + 7) / 8 * 8 + body;
}

/* What the peer says of the bytes. */
enum answer judge(const unsigned char *bytes, size_t size, struct said *said);

/* The whole message, decoded and encoded again, and its length; or NULL. A peer need not have it. */
unsigned char *again(const unsigned char *bytes, size_t size, size_t *length) __attribute__((weak));

#endif
