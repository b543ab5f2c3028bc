/* Checks the D-Bus messages on standard input, one after another, and prints what `dbus-wire check`
 * prints of them: how many there are, or where and why the first that is none is refused. */
#include <dbus_wire.h>

#include <stdio.h>
#include <stdlib.h>

/* All of standard input, with how many bytes it has. */
static uint8_t *read_all(size_t *count) {
    size_t room = 4096;
    uint8_t *bytes = malloc(room);
    *count = 0;
    while (bytes != NULL) {
        *count += fread(bytes + *count, 1, room - *count, stdin);
        if (*count < room) return bytes;
        uint8_t *grown = realloc(bytes, room *= 2);
        if (grown == NULL) free(bytes);
        bytes = grown;
    }
    return NULL;
}

/* The line of a refusal, whose offset counts from the start of the input; and in words, for people,
 * on standard error. */
static void print_refusal(uint64_t offset, uint32_t reason, uint32_t field) {
    uint8_t name[32];
    dbus_wire_reason_name(reason, name, sizeof name);
    printf("refused at %llu: %s", (unsigned long long)offset, (const char *)name);
    if (reason == DBUS_WIRE_REASON_FIELD_MISSING) printf("(%u)", (unsigned)field);
    printf("\n");
    fprintf(stderr, "%s\n", dbus_wire_reason_text(reason));
}

int main(void) {
    struct dbus_wire_checked told;
    size_t count, at = 0, messages = 0;
    uint8_t *bytes = read_all(&count);
    if (bytes == NULL || ferror(stdin)) return 3;

    while (at < count) {
        uint32_t answer = dbus_wire_check(bytes + at, count - at, NULL, &told);
        if (answer == DBUS_WIRE_REFUSED) {
            print_refusal(at + told.offset, told.reason, told.field);
            break;
        }
        if (answer == DBUS_WIRE_PARTIAL) {
            print_refusal(count, DBUS_WIRE_REASON_TRUNCATED, 0);
            break;
        }
        at += told.length;
        messages += 1;
    }
    free(bytes);
    if (at < count) return 1;
    printf("ok %zu messages %zu bytes\n", messages, at);
    return 0;
}
