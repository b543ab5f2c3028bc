/* Two sides of a connection in memory: `connection LENGTH` hands each the bytes of the other in
 * pieces of LENGTH bytes. They shake hands, one calls, and the other replies. */
#include <dbus_wire.h>
#include <stdio.h>
#include <stdlib.h>

/* One side, the bytes that were sent to it and not taken, and how many of them came. */
struct side {
    struct dbus_wire_connection connection;
    uint8_t bytes[4096];
    size_t length, came;
};

static void fail(const char *what) {
    fprintf(stderr, "%s\n", what);
    exit(1);
}

static void send_to(struct side *to, const uint8_t *bytes, size_t length) {
    if (length > sizeof to->bytes - to->length) fail("too many bytes");
    memcpy(to->bytes + to->length, bytes, length);
    to->length += length;
}

/* What comes of another piece. Out of memory it tries once more: nothing was lost. */
static struct dbus_wire_connection_step take(struct side *side, size_t piece, struct side *other) {
    struct dbus_wire_connection_step step;
    uint8_t out[DBUS_WIRE_REPLY_ROOM];
    uint64_t count;
    side->came = side->length - side->came < piece ? side->length : side->came + piece;
    uint32_t answer = dbus_wire_connection_take(&side->connection, side->bytes, side->came, &step);
    if (answer == DBUS_WIRE_NO_MEMORY)
        answer = dbus_wire_connection_take(&side->connection, side->bytes, side->came, &step);
    if (answer != DBUS_WIRE_OK) fail("out of memory");
    if (step.event != DBUS_WIRE_EVENT_MESSAGE) {
        memmove(side->bytes, side->bytes + step.count, side->length -= step.count);
        side->came -= step.count;
    }
    if (step.event == DBUS_WIRE_EVENT_UNSENT || step.event == DBUS_WIRE_EVENT_BEGUN) {
        if (dbus_wire_connection_unsent(&side->connection, out, sizeof out, &count) != DBUS_WIRE_OK)
            fail("no room");
        send_to(other, out, count);
    }
    return step;
}

static void make(struct side *side, struct dbus_wire_handshake *end) {
    if (dbus_wire_handshake_bound(end, 6, 6) != DBUS_WIRE_OK) fail("no end");
    if (dbus_wire_connection_new(end, NULL, UINT32_MAX, 1, &side->connection) != DBUS_WIRE_OK)
        fail("no side");
}

/* Waits for a message, whose bytes then begin those of the side. */
static struct dbus_wire_connection_step message(struct side *side, size_t piece,
                                                struct side *other) {
    struct dbus_wire_connection_step step;
    do step = take(side, piece, other);
    while (step.event != DBUS_WIRE_EVENT_MESSAGE);
    return step;
}

static void call(struct side *client, struct side *server, size_t piece) {
    struct dbus_wire_draft asks = {.order = 'l',
                                   .kind = DBUS_WIRE_TYPE_METHOD_CALL,
                                   .path = dbus_wire_text_of("/"),
                                   .member = dbus_wire_text_of("C")};
    struct dbus_wire_draft replies = {0};
    struct dbus_wire_connection_step step;
    struct dbus_wire_checked told;
    uint8_t out[256];
    uint64_t number;
    if (dbus_wire_connection_call(&client->connection, "a.b", 3, 7, &asks.serial) != DBUS_WIRE_OK)
        fail("no call");
    if (dbus_wire_connection_call(&client->connection, "", 0, 8, &asks.serial) != DBUS_WIRE_NO_ROOM)
        fail("one too many");
    if (dbus_wire_build(&asks, NULL, out, sizeof out, &told) != DBUS_WIRE_OK)
        fail("no call is built");
    send_to(server, out, told.length);
    message(server, piece, client);
    if (dbus_wire_connection_serial(&server->connection, &replies.serial) != DBUS_WIRE_OK)
        fail("no serial");
    if (dbus_wire_reply_to(server->bytes, server->length, NULL, &replies, out, sizeof out, &told) !=
        DBUS_WIRE_OK)
        fail("no reply");
    send_to(client, out, told.length);
    step = message(client, piece, server);
    if (!step.is_reply || step.call != 7 || step.count != told.length) fail("another reply");
    if (dbus_wire_connection_give_up(&client->connection, asks.serial, &number) !=
        DBUS_WIRE_NO_VALUE)
        fail("it waits");
}

int main(int count, char **words) {
    static const char guid[] = "0123456789abcdef0123456789ABCDEF";
    static struct side client, server;
    struct dbus_wire_mechanisms mechanisms = {DBUS_WIRE_EXTERNAL_AS_USER, 1000, 0, 1};
    struct dbus_wire_handshake asks = {0}, answers = {0};
    struct dbus_wire_connection_step at_client = {0}, at_server = {0};
    size_t piece = count > 1 ? strtoul(words[1], NULL, 10) : 1;
    if (dbus_wire_client_new(&mechanisms, NULL, 0, &asks) != DBUS_WIRE_OK) fail("no client");
    if (dbus_wire_server_new(guid, strlen(guid), &mechanisms, &answers) != DBUS_WIRE_OK)
        fail("no server");
    make(&client, &asks);
    make(&server, &answers);
    while (at_server.event != DBUS_WIRE_EVENT_BEGUN) {
        if (at_client.event != DBUS_WIRE_EVENT_BEGUN) at_client = take(&client, piece, &server);
        at_server = take(&server, piece, &client);
    }
    if (at_client.event != DBUS_WIRE_EVENT_BEGUN || !at_client.descriptors ||
        !at_server.descriptors)
        fail("they do not agree");
    call(&client, &server, piece);
    dbus_wire_connection_free(&client.connection);
    dbus_wire_connection_free(&server.connection);
    return 0;
}
