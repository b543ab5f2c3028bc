/* fuzz.h: compares another parser of D-Bus messages with this library, on bytes that a fuzzer
 * makes.
 *
 * Write their_check, and link it with fuzz.c, the library, and
 *   clang's libFuzzer:  clang -fsanitize=fuzzer,address -I../../include fuzz.c theirs.c -ldbus_wire -o fuzz
 *   or files.c, a main that runs over files:  cc -I../../include fuzz.c files.c theirs.c -ldbus_wire -o files
 * Without their_check only the library itself is tried. The fuzzer follows what their_check does if
 * it is compiled for it too, and what the library says of bytes. `seeds.py FOLDER` writes messages
 * to begin with, a file each. */
#ifndef DBUS_WIRE_FUZZ_H
#define DBUS_WIRE_FUZZ_H

#include <stddef.h>
#include <stdint.h>

#ifdef __cplusplus
extern "C" {
#endif

/* What the other parser says of bytes, if it is none of DBUS_WIRE_WHOLE, DBUS_WIRE_PARTIAL and
 * DBUS_WIRE_REFUSED. */
enum {
    THEIRS_NOT_WHOLE = 100, /* partial or refused: the parser does not say which */
    THEIRS_UNCOMPARED = 101 /* anything: of these bytes the parsers are known to differ */
};

/* What the other parser says of the bytes, as dbus_wire_check says it under the specification's
 * limits: DBUS_WIRE_WHOLE if they begin with a message, whatever follows it. The byte after the
 * last one cannot be read. */
__attribute__((weak)) uint32_t their_check(const uint8_t *bytes, size_t length);

/* Tries the bytes, and aborts if the parsers differ, or if two calls of the library do. Returns
 * 0. */
int LLVMFuzzerTestOneInput(const uint8_t *bytes, size_t length);

#ifdef __cplusplus
}
#endif

#endif
