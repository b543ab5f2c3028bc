/* The messages of standard input, one after the other: what a program that checks them does but for reading one of them. */
#include "read_input.h"

/* Says how many messages there are, or where the first begins that is refused, for which the status is 1. `read_one` parses the message
 * that the bytes begin with, and frees it: its length, or 0 if there is none. */
static int read_messages(size_t (*read_one)(unsigned char *bytes, size_t size)) {
    struct input input = read_input();
    size_t at = 0, count = 0;
    for (; at < input.size; count++) {
        size_t length = read_one(input.bytes + at, input.size - at);
        if (length == 0) {
            printf("refused in the message at %zu\n", at);
            return 1;
        }
        at += length;
    }
    printf("ok %zu messages %zu bytes\n", count, input.size);
    return 0;
}
