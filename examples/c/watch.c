/* Looks on at a handshake, as a proxy does that passes lines on: `watch CLIENT SERVER`, two files of
 * what each side sent. Prints the length of each line that is passed on, behind its side, and then
 * why no more is: "messages", "refused", or how many bytes of each side wait for more. It takes no
 * memory. */
#include <dbus_wire.h>

#include <stdio.h>
#include <stdlib.h>

struct side {
    const char *name;
    size_t length, at;
    uint8_t bytes[1 << 16];
};

typedef uint32_t look(struct dbus_wire_watch *, const void *, size_t, struct dbus_wire_line *);

static void read_all(struct side *side, const char *name, const char *path) {
    FILE *file = fopen(path, "rb");
    if (file == NULL) {
        perror(path);
        exit(2);
    }
    side->name = name;
    side->length = fread(side->bytes, 1, sizeof side->bytes, file);
    fclose(file);
}

/* Ends at the last line, and at one that is not to be passed on. */
static void end(const char *why, int status) {
    printf("%s\n", why);
    exit(status);
}

/* Passes on what one side sent, as far as it can be passed on by now, and says how many lines. */
static int pass(struct dbus_wire_watch *watch, look *look_at, struct side *side) {
    struct dbus_wire_line line;
    uint32_t answer;
    int count = 0;
    while ((answer = look_at(watch, side->bytes + side->at, side->length - side->at, &line)) == DBUS_WIRE_WHOLE) {
        printf("%s %llu\n", side->name, (unsigned long long)line.length);
        side->at += (size_t)line.length;
        count++;
        if (line.command == DBUS_WIRE_LINE_BEGIN) end("messages", 0);
    }
    if (answer == DBUS_WIRE_REFUSED) end("refused", 1);
    return count;
}

int main(int argc, char **argv) {
    static struct side client, server;
    struct dbus_wire_watch watch = {0};
    if (argc != 3) return 2;
    read_all(&client, "client", argv[1]);
    read_all(&server, "server", argv[2]);
    while (pass(&watch, dbus_wire_watch_client, &client) + pass(&watch, dbus_wire_watch_server, &server) > 0) continue;
    printf("%lu and %lu bytes left\n", (unsigned long)(client.length - client.at), (unsigned long)(server.length - server.at));
    return 0;
}
