/* All of standard input, for the programs in C that the commands are measured beside. */
#include <stdio.h>
#include <stdlib.h>

struct input {
    unsigned char *bytes;
    size_t size;
};

/* Without memory it ends the program by status 3. */
static struct input read_input(void) {
    struct input input = {malloc(1 << 23), 0};
    size_t room = 1 << 23, got;
    while (input.bytes && (got = fread(input.bytes + input.size, 1, room - input.size, stdin)) > 0) {
        input.size += got;
        if (input.size == room)
            input.bytes = realloc(input.bytes, room *= 2);
    }
    if (!input.bytes)
        exit(3);
    return input;
}
