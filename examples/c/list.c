/* Lists the D-Bus messages on standard input, as `dbus-wire show` does: a line with the number, the
 * byte order, the type, the serial, the flags and the header fields, and then one for each value of
 * the body. The texts are written from the bytes that were read: nothing is copied. */
#include <dbus_wire.h>

#include <stdio.h>
#include <stdlib.h>
#include <string.h>

static void print_type(uint32_t kind) {
    static const char *const names[] = {"method_call", "method_return", "error", "signal"};
    if (kind >= DBUS_WIRE_TYPE_METHOD_CALL && kind <= DBUS_WIRE_TYPE_SIGNAL)
        printf("%s", names[kind - 1]);
    else
        printf("kind%u", (unsigned)kind);
}

static void print_byte(uint8_t byte) {
    if (byte == '"' || byte == '\\')
        printf("\\%c", byte);
    else if (byte < 0x20 || byte == 0x7F)
        printf("\\x%02x", byte);
    else
        putchar(byte);
}

static void print_quoted(const uint8_t *text, uint64_t length) {
    uint64_t at;
    putchar('"');
    for (at = 0; at < length; at++) print_byte(text[at]);
    putchar('"');
}

static void print_number(uint32_t code, uint64_t number) {
    printf("%c:", (char)code);
    switch (code) {
    case 'b': printf("%s", number ? "true" : "false"); break;
    case 'n': printf("%d", (int)(int16_t)number); break;
    case 'i': printf("%ld", (long)(int32_t)number); break;
    case 'x': printf("%lld", (long long)number); break;
    case 'd': printf("%016llx", (unsigned long long)number); break;
    default: printf("%llu", (unsigned long long)number);
    }
}

/* How many bytes a number of the type has, or 0 if it is no type of numbers. */
static unsigned width_of(uint32_t code) {
    return code == 'y' ? 1 : strchr("nq", (int)code) ? 2 : strchr("biuh", (int)code) ? 4 : strchr("xtd", (int)code) ? 8 : 0;
}

/* The elements of an array of numbers, which are read from the message's bytes, in its order. */
static void print_numbers(const uint8_t *bytes, const struct dbus_wire_flat_item *array, unsigned width) {
    uint64_t at, number;
    unsigned n;
    for (at = array->offset; at < array->offset + array->length; at += width) {
        for (number = 0, n = 0; n < width; n++) number = number << 8 | bytes[bytes[0] == 'l' ? at + width - 1 - n : at + n];
        if (at > array->offset) printf(", ");
        print_number(array->element, number);
    }
}

/* The first type of a signature ends there. */
static const char *after_type(const char *types) {
    int open = 0;
    do {
        while (*types == 'a') types++;
        open += (*types == '(' || *types == '{') - (*types == ')' || *types == '}');
        types++;
    } while (open > 0);
    return types;
}

static void print_value(const uint8_t *bytes, const struct dbus_wire_flat_item *item, const char *types);

/* What is within a container: values of these types, or of the first of them each. */
static void print_parts(const uint8_t *bytes, const struct dbus_wire_flat_item *item, const char *types, int are_elements) {
    const struct dbus_wire_flat_item *part = item + 1, *end = item + dbus_wire_item_after(item, 0);
    while (part < end) {
        print_value(bytes, part, types);
        part += dbus_wire_item_after(part, 0);
        if (!are_elements) types = after_type(types);
        if (part < end) printf(", ");
    }
}

static void print_array(const uint8_t *bytes, const struct dbus_wire_flat_item *item, const char *types) {
    unsigned width = width_of(item->element);
    uint64_t at;
    printf("%.*s:", (int)(after_type(types) - types), types);
    if (item->element == 'y') {
        for (at = 0; at < item->length; at++) printf("%02x", bytes[item->offset + at]);
        return;
    }
    printf("[");
    if (width > 0)
        print_numbers(bytes, item, width);
    else
        print_parts(bytes, item, types + 1, 1);
    printf("]");
}

/* A value, whose type is the first of these. */
static void print_value(const uint8_t *bytes, const struct dbus_wire_flat_item *item, const char *types) {
    static const char opening[] = "({v", *const around[] = {"()", "{}", "<>"};
    const char *container = strchr(opening, (int)item->code);
    if (container != NULL) {
        putchar(around[container - opening][0]);
        print_parts(bytes, item, item->code == 'v' ? (const char *)bytes + item->offset : types + 1, 0);
        putchar(around[container - opening][1]);
    } else if (item->code == 'a') {
        print_array(bytes, item, types);
    } else if (strchr("sog", (int)item->code) != NULL) {
        printf("%c:", (char)item->code);
        print_quoted(bytes + item->offset, item->length);
    } else {
        print_number(item->code, item->number);
    }
}

/* The items of a message's header fields, and of its body. */
enum { ROOM = 1 << 16 };
static struct dbus_wire_flat_item fields[ROOM], values[ROOM];

static void print_body(const uint8_t *bytes, const struct dbus_wire_parts *parts, uint64_t all) {
    const char *types = (const char *)bytes + parts->signature.offset;
    uint64_t at;
    for (at = 0; at < all; at = dbus_wire_item_after(values, at)) {
        printf("  ");
        print_value(bytes, &values[at], types);
        printf("\n");
        types = after_type(types);
    }
}

/* A field: a struct, its code, a VARIANT, and its value. A known field's value, a text or a number,
 * stands alone; any other is shown as any value is. */
static void print_field(const uint8_t *bytes, const struct dbus_wire_flat_item *field) {
    static const char *const names[] = {"path", "interface", "member", "error_name", "reply_serial", "destination", "sender", "signature",
                                        "unix_fds"};
    const struct dbus_wire_flat_item *value = &field[3];
    unsigned code = (unsigned)field[1].number;
    if (code > DBUS_WIRE_FIELD_UNIX_FDS) {
        printf(" field%u=", code);
        print_value(bytes, value, (const char *)bytes + field[2].offset);
    } else if (value->code == 'u') {
        printf(" %s=%u", names[code - 1], (unsigned)value->number);
    } else {
        printf(" %s=%.*s", names[code - 1], (int)value->length, (const char *)bytes + value->offset);
    }
}

static void print_header(unsigned long number, const uint8_t *bytes, const struct dbus_wire_parts *parts) {
    uint64_t at, all;
    printf("#%lu %c ", number, (char)parts->order);
    print_type(parts->kind);
    printf(" serial=%u flags=%02x", (unsigned)parts->serial, (unsigned)parts->flags);
    if (dbus_wire_flatten_fields(bytes, parts->length, NULL, 0, fields, ROOM, &all, NULL) != DBUS_WIRE_WHOLE) exit(1);
    for (at = 1; at < all; at += 1 + fields[at].number) print_field(bytes, &fields[at]);
    printf("\n");
}

int main(void) {
    static uint8_t bytes[1 << 20];
    struct dbus_wire_parts parts;
    size_t count = fread(bytes, 1, sizeof bytes, stdin), at = 0;
    unsigned long number = 0;
    uint64_t all;

    while (dbus_wire_read(bytes + at, count - at, NULL, &parts, values, ROOM, &all, NULL) == DBUS_WIRE_WHOLE) {
        print_header(++number, bytes + at, &parts);
        print_body(bytes + at, &parts, all);
        at += parts.length;
    }
    return at < count;
}
