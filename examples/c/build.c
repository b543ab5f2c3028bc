/* Builds messages of those on standard input, and writes them. The words say what is built of each:
 *   again                the same message, byte for byte
 *   serial NUMBER        the same with this serial
 *   destination NAME     the same with this destination
 *   error NAME           of each call, the error of this name that answers it, with serial 1 */
#include <dbus_wire.h>

#include <stdio.h>
#include <stdlib.h>

/* Builds what the words say of the message with these parts at the start of the bytes, and writes
 * it. Returns whether it was built. */
static int build(const uint8_t *bytes, const struct dbus_wire_parts *parts, const char *what, const char *word) {
    static uint8_t out[1 << 20];
    struct dbus_wire_checked told;
    struct dbus_wire_draft draft = dbus_wire_draft_of(parts, bytes), error = {.serial = 1, .error_name = dbus_wire_text_of(word)};
    uint32_t answer;

    if (strcmp(what, "error") == 0) {
        if (parts->kind != DBUS_WIRE_TYPE_METHOD_CALL) return 1;
        answer = dbus_wire_reply_to(bytes, parts->length, NULL, &error, out, sizeof out, &told);
    } else {
        if (strcmp(what, "serial") == 0) draft.serial = (uint32_t)strtoul(word, NULL, 10);
        if (strcmp(what, "destination") == 0) draft.destination = dbus_wire_text_of(word);
        answer = dbus_wire_rebuild(bytes, parts->length, NULL, &draft, out, sizeof out, &told);
    }
    switch (answer) {
    case DBUS_WIRE_OK: return fwrite(out, 1, told.length, stdout) == told.length;
    case DBUS_WIRE_REFUSED: fprintf(stderr, "not built: %s\n", dbus_wire_reason_text(told.reason)); return 0;
    case DBUS_WIRE_NO_ROOM: fprintf(stderr, "not built: it has %llu bytes\n", (unsigned long long)told.length); return 0;
    default: fputs("not built: out of memory\n", stderr); return 0;
    }
}

int main(int count_of_words, char **words) {
    static uint8_t all[1 << 19];
    struct dbus_wire_parts parts;
    size_t count = fread(all, 1, sizeof all, stdin), at = 0;
    const char *what = count_of_words > 1 ? words[1] : "again", *word = count_of_words > 2 ? words[2] : "";

    while (at < count && dbus_wire_parts_of(all + at, count - at, NULL, &parts, NULL) == DBUS_WIRE_WHOLE) {
        if (!build(all + at, &parts, what, word)) return 1;
        at += parts.length;
    }
    return at < count;
}
