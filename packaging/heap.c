/* The memory of the library, by malloc, realloc and free: what the kit's crate `libc` says in
 * `src/heap.rt` and `specs/Heap.antt`. `make library` puts it into the archive for systems for which
 * the kit has no object of its own. A program over the archive that defines these three functions
 * itself has memory from wherever it takes it (docs/LIBRARY.md). No proof covers it. Alignments
 * divide 16, which malloc keeps on the systems that the kit builds for. */
#include <stdbool.h>
#include <stddef.h>
#include <stdlib.h>

/* Whether there is memory, and the pointer to it, which is not null if there is none. */
struct tried {
    bool ok;
    void *p;
};

static struct tried tried(void *block) {
    static char none;
    struct tried answer = {block != NULL, block != NULL ? block : &none};
    return answer;
}

/* malloc may return null for 0 bytes, and realloc then frees. */
static size_t at_least_one(size_t count) {
    return count > 0 ? count : 1;
}

/* A block of `count` bytes at least, at a multiple of the alignment. */
struct tried dbus_wire_alloc(size_t count, size_t alignment) {
    (void)alignment;
    return tried(malloc(at_least_one(count)));
}

/* The block in `count` bytes at least, with its first `kept` bytes as they were; or it stays, if
 * there is no memory. */
struct tried dbus_wire_realloc(void *block, size_t kept, size_t count, size_t alignment) {
    (void)kept;
    (void)alignment;
    return tried(realloc(block, at_least_one(count)));
}

/* Takes the block back. */
void dbus_wire_dealloc(void *block) {
    free(block);
}
