/* Writes a signal PropertiesChanged to standard output. Each pair of words is a property of it and
 * what it is now: a number, an UINT32, or another text, a STRING. Its body, "sa{sv}as", is spelled
 * by the calls of a writer. */
#include <dbus_wire.h>

#include <stdio.h>
#include <stdlib.h>

/* The body. */
static uint8_t bytes[1 << 16];
static struct dbus_wire_writer body = {0, 'l', 0};

static int put_text(const char *text) {
    return dbus_wire_put_text(bytes, sizeof bytes, &body, text, strlen(text)) == DBUS_WIRE_OK;
}

/* What stands before the value in a variant of this type. */
static int begin_variant(const char *type) {
    return dbus_wire_put_signature(bytes, sizeof bytes, &body, type, strlen(type)) == DBUS_WIRE_OK;
}

/* A dict entry of `a{sv}`. */
static int put_property(const char *name, const char *now) {
    char *end;
    unsigned long number = strtoul(now, &end, 10);

    if (dbus_wire_begin_struct(bytes, sizeof bytes, &body) != DBUS_WIRE_OK || !put_text(name)) return 0;
    if (*now == '\0' || *end != '\0') return begin_variant("s") && put_text(now);
    return begin_variant("u") && dbus_wire_put_number(bytes, sizeof bytes, &body, 4, number) == DBUS_WIRE_OK;
}

/* The interface, the properties that changed, and the names of those of which it is not told:
 * none. */
static int put_body(int count, char **words) {
    struct dbus_wire_array array;

    if (!put_text("org.example.Service") || dbus_wire_open_array(bytes, sizeof bytes, &body, 8, &array) != DBUS_WIRE_OK) return 0;
    for (int i = 0; i + 1 < count; i += 2)
        if (!put_property(words[i], words[i + 1])) return 0;
    if (dbus_wire_close_array(bytes, sizeof bytes, &body, &array) != DBUS_WIRE_OK) return 0;
    return dbus_wire_open_array(bytes, sizeof bytes, &body, 4, &array) == DBUS_WIRE_OK
        && dbus_wire_close_array(bytes, sizeof bytes, &body, &array) == DBUS_WIRE_OK;
}

int main(int count_of_words, char **words) {
    static uint8_t out[(1 << 16) + 512];
    struct dbus_wire_draft draft = {.order = 'l', .kind = DBUS_WIRE_TYPE_SIGNAL, .serial = 1};
    struct dbus_wire_checked told;

    if (!put_body(count_of_words - 1, words + 1)) {
        fputs("not spelled: it is too long\n", stderr);
        return 1;
    }
    draft.path = dbus_wire_text_of("/org/example/service");
    draft.interface = dbus_wire_text_of("org.freedesktop.DBus.Properties");
    draft.member = dbus_wire_text_of("PropertiesChanged");
    draft.signature = dbus_wire_text_of("sa{sv}as");
    draft.body = bytes;
    draft.body_length = body.length;
    if (dbus_wire_build(&draft, NULL, out, sizeof out, &told) != DBUS_WIRE_OK) {
        fprintf(stderr, "not built: %s\n", dbus_wire_reason_text(told.reason));
        return 1;
    }
    return fwrite(out, 1, told.length, stdout) != told.length;
}
