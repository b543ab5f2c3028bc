/* Takes deliveries of messages with file descriptors as a server: lines of standard input say what
 * is sent, `piece BYTES FILE..`, the bytes as hexadecimal digits, and what then has to come,
 * `message LENGTH FILE..`. Each FILE is the number of one of six files. python/tests has a script
 * that writes such lines. */
#include <dbus_wire_bus.h>
#include <sys/mman.h>
#include <sys/stat.h>

#define FILES 6

static const char guid[] = "0123456789abcdef0123456789abcdef";

/* The files, and what was sent and not yet received. */
static int files[FILES];
static uint8_t sent[1 << 20];
static size_t sent_length;

static void fail(const char *what) {
    fprintf(stderr, "%s\n", what);
    exit(1);
}

/* The files that the words say: how many. */
static size_t files_of(const char *words, int *chosen) {
    size_t count = 0;
    char *end;
    for (unsigned long it; it = strtoul(words, &end, 10), end != words; words = end) {
        if (it >= FILES || count == DBUS_WIRE_BUS_FDS) fail("no such file");
        chosen[count++] = files[it];
    }
    return count;
}

static void send_piece(int to, const char *words) {
    int chosen[DBUS_WIRE_BUS_FDS];
    uint8_t *begin = sent + sent_length;
    for (; *words != ' ' && *words != '\n'; words += 2) {
        const char digits[3] = {words[0], words[1], 0};
        if (sent_length == sizeof sent || digits[1] == 0) fail("no such bytes");
        sent[sent_length++] = (uint8_t)strtoul(digits, NULL, 16);
    }
    size_t count = files_of(words, chosen);
    if (!dbus_wire_bus_send(to, begin, (size_t)(sent + sent_length - begin), chosen, count))
        fail("nothing is sent");
}

static void receive_message(struct dbus_wire_bus *from, const char *words) {
    struct dbus_wire_bus_message *it = dbus_wire_bus_receive(from);
    int chosen[DBUS_WIRE_BUS_FDS];
    char *rest;
    size_t length = strtoul(words, &rest, 10), count = files_of(rest, chosen);
    if (it == NULL || it->parts.length != length || memcmp(it->bytes, sent, length) != 0)
        fail("another message came");
    memmove(sent, sent + length, sent_length -= length);
    if (it->fd_count != count) fail("another number of descriptors came");
    for (size_t at = 0; at < count; at++) {
        struct stat own, other;
        if (fstat(it->fds[at], &own) != 0 || fstat(chosen[at], &other) != 0 ||
            own.st_ino != other.st_ino)
            fail("another descriptor came");
    }
    dbus_wire_bus_drop(it);
}

int main(void) {
    struct dbus_wire_mechanisms own_user = {DBUS_WIRE_EXTERNAL_AS_USER, getuid(), 0, 1};
    struct dbus_wire_handshake server = {0};
    struct dbus_wire_bus *bus = NULL;
    int ends[2], count = 0;
    size_t room = 0;
    char *line = NULL;
    for (int at = 0; at < FILES; at++) files[at] = memfd_create("file", 0);
    if (socketpair(AF_UNIX, SOCK_STREAM, 0, ends) != 0 ||
        dbus_wire_server_new(guid, strlen(guid), &own_user, &server) != DBUS_WIRE_OK)
        fail("no server");
    for (; getline(&line, &room, stdin) > 0; count++) {
        if (strncmp(line, "message ", 8) == 0) {
            receive_message(bus, line + 8);
            continue;
        }
        send_piece(ends[1], line + 6);
        if (bus != NULL) continue;
        /* The first piece is a handshake. */
        if ((bus = dbus_wire_bus_over(ends[0], &server)) == NULL) fail("the handshake failed");
        sent_length = 0;
    }
    printf("%d lines\n", count);
    free(line), dbus_wire_bus_close(bus);
    return count < 2;
}
