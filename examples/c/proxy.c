/* Stands between clients and a bus: `proxy deny|allow DOOR BUS RULE..` lets in clients of its own
 * user at the Unix socket DOOR, a process for each, and connects each to the bus at the server
 * addresses BUS. It is a server to the client and a client to the bus, and passes messages on, with
 * their file descriptors, in both directions, each validated. It drops a SENDER that a client
 * names, as a bus does. With `deny`, what a client sends does not get through if one of the match
 * rules may match it; with `allow`, if none matches it with the SENDER that the bus writes. Then a
 * call is answered by the error org.freedesktop.DBus.Error.AccessDenied. Bytes that are no message
 * end the connection. Reads and writes block, so a peer that stops within a message stops the other
 * one.
 *
 * If a name changes hands after the rules are asked, and before the bus routes the message, this
 * reaches the new owner: no proxy beside the bus can prevent it. */
#include "owners.h"
#include <signal.h>

static const char guid[] = "0123456789abcdef0123456789abcdef";

/* Whether what the rules match is allowed, and nothing else; or what they may match is denied. */
static int allows;

/* The rules, with the owners of names. */
static struct dbus_wire_rules rules;

/* The client's name, which the bus's first message to it has, or "". */
static char name[256];

/* The message with this SENDER, or with none if that is "": its bytes, and their number. */
static uint8_t *with_sender(const struct dbus_wire_bus_message *it, const char *sender,
                            uint64_t *length) {
    struct dbus_wire_draft draft = dbus_wire_draft_of(&it->parts, it->bytes);
    size_t room = it->parts.length + sizeof name + 64;
    uint8_t *bytes = malloc(room);
    struct dbus_wire_checked told;
    draft.sender = (struct dbus_wire_draft_text){sender, strlen(sender), *sender != 0};
    if (bytes == NULL || dbus_wire_rebuild(it->bytes, it->parts.length, NULL, &draft, bytes, room,
                                           &told) != DBUS_WIRE_OK)
        fail("no message is rebuilt");
    *length = told.length;
    return bytes;
}

/* Whether a rule matches the message with the SENDER that the bus writes, or with none if the bus
 * has given the client no name. */
static int is_allowed(const struct dbus_wire_bus_message *it) {
    uint64_t length, count;
    uint8_t *sent = with_sender(it, name, &length);
    uint32_t answer = dbus_wire_rules_matching(&rules, sent, length, NULL, NULL, 0, &count, NULL);
    free(sent);
    return answer == DBUS_WIRE_NO_ROOM && count > 0;
}

/* Whether the message of the client gets through. */
static int gets_through(const struct dbus_wire_bus_message *it) {
    uint32_t may, answer;
    if (allows) return is_allowed(it);
    answer = dbus_wire_rules_may_match(&rules, it->bytes, it->parts.length, NULL, name,
                                       strlen(name), &may, NULL);
    return answer == DBUS_WIRE_WHOLE && !may;
}

/* The next message, or the end of this process. */
static struct dbus_wire_bus_message *receive(struct dbus_wire_bus *from) {
    struct dbus_wire_bus_message *it = dbus_wire_bus_receive(from);
    if (it == NULL) exit(0);
    return it;
}

static void send_on(struct dbus_wire_bus *to, struct dbus_wire_bus_message *it) {
    if (!dbus_wire_bus_send(to->socket, it->bytes, it->parts.length, it->fds, it->fd_count))
        exit(0);
    dbus_wire_bus_drop(it);
}

/* Passes on what the client sent, or answers a call by an error, whose serial the bus does not
 * reach soon. */
static void pass_call(struct dbus_wire_bus *client, struct dbus_wire_bus *bus) {
    struct dbus_wire_draft denied = {.serial = UINT32_C(1) << 31,
                                     .error_name =
                                         dbus_wire_text_of(DBUS_WIRE_BUS_ERROR "AccessDenied")};
    struct dbus_wire_bus_message *it = receive(client);
    if (gets_through(it)) {
        uint8_t *unnamed = with_sender(it, "", &it->parts.length);
        free(it->bytes);
        it->bytes = unnamed;
        send_on(bus, it);
        return;
    }
    dbus_wire_bus_drop(client->asked);
    client->asked = it;
    if (it->parts.kind == DBUS_WIRE_TYPE_METHOD_CALL &&
        !(it->parts.flags & DBUS_WIRE_FLAG_NO_REPLY_EXPECTED) &&
        !dbus_wire_bus_send_draft(client, denied, "", &client->given))
        exit(0);
}

/* Passes on what the bus sent, of which the first message tells the client's name. */
static void pass_back(struct dbus_wire_bus *bus, struct dbus_wire_bus *client) {
    struct dbus_wire_bus_message *it = receive(bus);
    if (*name == 0) snprintf(name, sizeof name, "%s", dbus_wire_bus_field(it, destination));
    send_on(client, it);
}

/* Serves a client until it or the bus closes. */
static void serve(int socket_of_client, const char *addresses) {
    struct dbus_wire_mechanisms own_user = {DBUS_WIRE_EXTERNAL_AS_USER, getuid(), 0, 1};
    struct dbus_wire_handshake server = {0};
    struct ucred caller;
    socklen_t size = sizeof caller;
    if (getsockopt(socket_of_client, SOL_SOCKET, SO_PEERCRED, &caller, &size) != 0 ||
        caller.uid != getuid())
        fail("another user");
    struct dbus_wire_bus *asking = know_owners(&rules, addresses);
    if (dbus_wire_server_new(guid, strlen(guid), &own_user, &server) != DBUS_WIRE_OK)
        fail("no server");
    struct dbus_wire_bus *client = dbus_wire_bus_over(socket_of_client, &server);
    if (client == NULL) fail("the handshake failed");
    struct dbus_wire_bus *bus = dbus_wire_bus_join(addresses, client->passes_fds);
    if (bus == NULL) fail("no bus");
    for (;;) {
        struct pollfd all[3] = {
            {client->socket, POLLIN, 0}, {bus->socket, POLLIN, 0}, {asking->socket, POLLIN, 0}};
        if (poll(all, 3, -1) < 0) fail("poll");
        hear(&rules, asking);
        if (all[0].revents) pass_call(client, bus);
        if (all[1].revents) pass_back(bus, client);
    }
}

static void add_rule(const char *text) {
    struct dbus_wire_rule_id id;
    struct dbus_wire_rule_refused told;
    uint32_t answer = dbus_wire_rules_add(&rules, text, strlen(text), &id, &told);
    if (answer == DBUS_WIRE_REFUSED) {
        fprintf(stderr, "%s, at %llu: %s\n", text, (unsigned long long)told.offset,
                dbus_wire_rule_reason_text(told.reason));
        exit(2);
    }
    if (answer != DBUS_WIRE_OK) fail("out of memory");
}

int main(int count_of_words, char **words) {
    struct sockaddr_un address = {.sun_family = AF_UNIX};
    int i, client, door = socket(AF_UNIX, SOCK_STREAM, 0);
    if (count_of_words < 4 || strlen(words[2]) >= sizeof address.sun_path)
        fail("proxy deny|allow DOOR BUS RULE..");
    allows = strcmp(words[1], "allow") == 0;
    if (!allows && strcmp(words[1], "deny") != 0) fail("deny or allow?");
    for (i = 4; i < count_of_words; i++) add_rule(words[i]);
    strcpy(address.sun_path, words[2]);
    if (door < 0 || bind(door, (struct sockaddr *)&address, sizeof address) != 0 ||
        listen(door, 16) != 0)
        fail("listen");
    signal(SIGCHLD, SIG_IGN);
    while ((client = accept(door, NULL, NULL)) >= 0) {
        if (fork() == 0) {
            close(door);
            serve(client, words[3]);
        }
        close(client);
    }
    return 1;
}
