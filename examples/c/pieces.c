/* Checks the D-Bus messages on standard input as their bytes come, in pieces of 7 bytes or of as
 * many as its argument says, and prints what `dbus-wire check` prints of them. It keeps no bytes
 * but those of a piece. */
#include <dbus_wire.h>

#include <stdio.h>
#include <stdlib.h>

/* The most bytes of a piece. */
enum { ROOM = 65536 };

/* What was read so far: whole messages, their bytes, and those of the message under way. */
struct count {
    unsigned long long messages, bytes, under_way;
};

/* The line of a refusal, whose offset counts from the start of the input. */
static int print_refusal(uint64_t offset, uint32_t reason, uint32_t field) {
    uint8_t name[32];
    dbus_wire_reason_name(reason, name, sizeof name);
    printf("refused at %llu: %s", (unsigned long long)offset, (const char *)name);
    if (reason == DBUS_WIRE_REASON_FIELD_MISSING) printf("(%u)", (unsigned)field);
    printf("\n");
    return 1;
}

/* Hands the checker the piece, message after message. The last answer, which is DBUS_WIRE_PARTIAL
 * if no bytes of it are left. */
static uint32_t take_all(struct dbus_wire_checker *checker, const uint8_t *piece, size_t length, struct count *count,
                         struct dbus_wire_taken *told) {
    for (;;) {
        uint32_t answer = dbus_wire_checker_take(checker, piece, length, told);
        count->under_way += told->count;
        if (answer != DBUS_WIRE_WHOLE) return answer;
        piece += told->count, length -= told->count;
        count->messages += 1, count->bytes += count->under_way, count->under_way = 0;
        dbus_wire_checker_restart(checker);
    }
}

static int check_all(struct dbus_wire_checker *checker, size_t most) {
    static uint8_t piece[ROOM];
    struct count count = {0, 0, 0};
    struct dbus_wire_taken told;
    size_t length;
    while ((length = fread(piece, 1, most, stdin)) > 0)
        if (take_all(checker, piece, length, &count, &told) == DBUS_WIRE_REFUSED)
            return print_refusal(count.bytes + told.offset, told.reason, told.field);
    if (ferror(stdin)) return 3;
    if (count.under_way > 0) return print_refusal(count.bytes + count.under_way, DBUS_WIRE_REASON_TRUNCATED, 0);
    printf("ok %llu messages %llu bytes\n", count.messages, count.bytes);
    return 0;
}

int main(int argc, char **argv) {
    struct dbus_wire_checker checker = {0};
    long most = argc > 1 ? atol(argv[1]) : 7;
    int status;
    if (dbus_wire_checker_new(NULL, &checker) != DBUS_WIRE_OK) {
        fprintf(stderr, "out of memory\n");
        return 3;
    }
    status = check_all(&checker, most < 1 ? 1 : most > ROOM ? ROOM : (size_t)most);
    dbus_wire_checker_free(&checker);
    return status;
}
