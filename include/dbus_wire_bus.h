/* dbus_wire_bus.h: a connection to a message bus over a Unix socket, and objects that it serves.
 *
 * For C99 on Linux, over libdbus_wire. All of it is inline and blocks, is tested, and is not
 * proved. A struct dbus_wire_bus is for one thread, and memory that runs out ends the program.
 *
 *   static void get(struct dbus_wire_bus *bus, void *data) { dbus_wire_bus_put(bus, "u", 7); }
 *   static const struct dbus_wire_bus_member lab[] = {
 *       {'m', "org.example.Lab", "Get", "", "u", get, 0}, {0}};
 *   ..
 *   struct dbus_wire_bus *bus = dbus_wire_bus_session();
 *   if (bus == NULL || !dbus_wire_bus_request_name(bus, "org.example.Lab")) return 1;
 *   dbus_wire_bus_serve(bus, "/org/example/Lab", lab, NULL);
 *   while (dbus_wire_bus_next(bus)) {}
 *
 * Values are put as dbus_wire_put does. A value of type `h` is what dbus_wire_bus_pass returns. */
#ifndef DBUS_WIRE_BUS_H
#define DBUS_WIRE_BUS_H

/* Sockets and open_memstream: so include this before other headers, or define it. */
#ifndef _GNU_SOURCE
#define _GNU_SOURCE
#endif

#include "dbus_wire.h"
#include <stdio.h>
#include <stdlib.h>
#include <sys/socket.h>
#include <sys/un.h>
#include <unistd.h>

#define DBUS_WIRE_BUS "org.freedesktop.DBus"
#define DBUS_WIRE_BUS_ERROR DBUS_WIRE_BUS ".Error."
/* The most file descriptors that Linux passes at once. */
#define DBUS_WIRE_BUS_FDS 253

struct dbus_wire_bus;

/* A member of an interface. A table of them ends with {0}. */
struct dbus_wire_bus_member {
    char kind; /* 'm' a method, 's' a signal, 'p' a property */
    const char *interface, *name;
    /* The types of a method's values; `gives` is a signal's or a property's. */
    const char *takes, *gives;
    /* Puts the values of a method's reply or of a property, or fails. The call is bus->asked. */
    void (*get)(struct dbus_wire_bus *bus, void *data);
    /* Sets a property, which may be NULL, to the value that begins at bus->asked->items[3]. */
    void (*set)(struct dbus_wire_bus *bus, void *data);
};

/* A message that came, with all values of its body, as dbus_wire_read gives them, and its file
 * descriptors, which are closed with it. */
struct dbus_wire_bus_message {
    struct dbus_wire_bus_message *after; /* one that came later, and waits too */
    struct dbus_wire_parts parts;
    struct dbus_wire_flat_item *items;
    uint64_t count;
    uint8_t *bytes;
    int fds[DBUS_WIRE_BUS_FDS];
    uint32_t fd_count;
};

/* Values that are put, and the file descriptors that are sent with them. */
struct dbus_wire_bus_body {
    struct dbus_wire_writer writer;
    uint8_t *bytes;
    size_t room;
    const char *types;        /* those of the last values */
    uint32_t fault, fd_count; /* why one was not put, or 0 */
    int fds[DBUS_WIRE_BUS_FDS];
};

struct dbus_wire_bus {
    /* The message at hand, the reply to the last call, and what came before that. */
    struct dbus_wire_bus_message *asked, *reply, *later;
    struct dbus_wire_bus_body given, sent; /* the reply to the call at hand, and another message */
    int socket, passes_fds;                /* whether both ends agreed to pass file descriptors */
    struct dbus_wire_connection connection;
    struct dbus_wire_connection_step step; /* what came last */
    int fds[DBUS_WIRE_BUS_FDS];            /* those that came, and no message has yet */
    uint32_t fd_count;
    uint8_t *out;
    size_t out_room, served_count;
    const char *error, *text;
    /* The members that are served: first those that each object has, which have no path. */
    struct dbus_wire_bus_served {
        const char *path;
        const struct dbus_wire_bus_member *member;
        void *data;
    } * served;
};

static inline void *dbus_wire_bus_grown(void *of, size_t size) {
    if ((of = realloc(of, size)) == NULL) abort();
    return of;
}

/* A text of a message: its field, or an item of its body. It is "" if there is none, and never
 * null. */
#define dbus_wire_bus_field(it, place) dbus_wire_text_in((it)->bytes, (it)->parts.place)
static inline const char *dbus_wire_bus_text(const struct dbus_wire_bus_message *it, uint64_t at) {
    int is_text = at < it->count && strchr("sogv", (int)it->items[at].code) != NULL;
    return is_text ? (const char *)it->bytes + it->items[at].offset : "";
}

/* The file descriptor that an item is; -1 if it is none, or if it did not come. */
static inline int dbus_wire_bus_fd(const struct dbus_wire_bus_message *it, uint64_t at) {
    int is_fd = at < it->count && it->items[at].code == 'h';
    return is_fd && it->items[at].number < it->fd_count ? it->fds[it->items[at].number] : -1;
}

static inline uint32_t dbus_wire_bus_room(struct dbus_wire_bus_body *to) {
    to->bytes = dbus_wire_bus_grown(to->bytes, to->room = 2 * to->room + 64);
    return DBUS_WIRE_OK;
}

static inline void dbus_wire_bus_put_to(struct dbus_wire_bus_body *to, const char *types, ...) {
    va_list values;
    va_start(values, types);
    while (to->fault == DBUS_WIRE_OK &&
           (to->fault = dbus_wire_put_list(to->bytes, to->room, &to->writer, types, values)) ==
               DBUS_WIRE_NO_ROOM)
        to->fault = dbus_wire_bus_room(to);
    to->types = types;
    va_end(values);
}

/* Puts values of these types after those of the reply to the call at hand. */
#define dbus_wire_bus_put(bus, ...) dbus_wire_bus_put_to(&(bus)->given, __VA_ARGS__)

/* Has a file descriptor be sent with these values, &bus->given or &bus->sent, and returns what
 * is put for it. It has to be open until then; of -1 nothing is sent, and a call that is at hand
 * fails. */
static inline uint32_t dbus_wire_bus_pass(struct dbus_wire_bus_body *with, int fd) {
    if (fd < 0 || with->fd_count == DBUS_WIRE_BUS_FDS) return with->fault = DBUS_WIRE_NO_VALUE;
    with->fds[with->fd_count] = fd;
    return with->fd_count++;
}

/* Has the reply to the call at hand be this error. Both texts have to last until it is sent. */
static inline void dbus_wire_bus_fail(struct dbus_wire_bus *bus, const char *error,
                                      const char *text) {
    bus->error = error, bus->text = text;
}

/* Room for file descriptors beside some bytes. */
union dbus_wire_bus_beside {
    struct cmsghdr head;
    char bytes[CMSG_SPACE(sizeof(int[DBUS_WIRE_BUS_FDS]))];
};

static inline int dbus_wire_bus_send(int to, uint8_t *bytes, size_t length, const int *fds,
                                     size_t fd_count) {
    const size_t size = fd_count * sizeof *fds;
    union dbus_wire_bus_beside beside = {.head = {.cmsg_len = CMSG_LEN(size)}};
    struct iovec all = {bytes, length};
    struct msghdr message = {.msg_iov = &all, .msg_iovlen = 1, .msg_control = &beside};
    beside.head.cmsg_level = SOL_SOCKET, beside.head.cmsg_type = SCM_RIGHTS;
    if (size > 0) memcpy(CMSG_DATA(&beside.head), fds, size);
    message.msg_controllen = size > 0 ? CMSG_SPACE(size) : 0;
    for (ssize_t sent; all.iov_len > 0; all.iov_len -= (size_t)sent, message.msg_controllen = 0) {
        if ((sent = sendmsg(to, &message, MSG_NOSIGNAL)) <= 0) return 0;
        all.iov_base = (uint8_t *)all.iov_base + sent;
    }
    return 1;
}

static inline void dbus_wire_bus_clear(struct dbus_wire_bus_body *it, uint32_t order) {
    it->writer = (struct dbus_wire_writer){0, order, 0}, it->fault = it->fd_count = 0;
}

/* Sends the draft, or else the reply to the call at hand, with values of these types. */
static inline int dbus_wire_bus_send_draft(struct dbus_wire_bus *bus, struct dbus_wire_draft draft,
                                           const char *types, struct dbus_wire_bus_body *values) {
    const struct dbus_wire_bus_message *to = bus->asked;
    struct dbus_wire_checked told = {0};
    uint32_t answer = values->fault;
    draft.order = 'l', draft.signature = dbus_wire_text_of(types);
    draft.unix_fds = values->fd_count, draft.body = values->bytes;
    draft.body_length = values->writer.length;
    dbus_wire_bus_clear(values, 'l');
    if (answer != DBUS_WIRE_OK || (draft.unix_fds > 0 && !bus->passes_fds)) return 0;
    if (draft.serial == 0) answer = dbus_wire_connection_serial(&bus->connection, &draft.serial);
    do {
        if (told.length > bus->out_room)
            bus->out = dbus_wire_bus_grown(bus->out, bus->out_room = told.length);
        answer = draft.kind != 0 ? dbus_wire_build(&draft, NULL, bus->out, bus->out_room, &told)
                                 : dbus_wire_reply_to(to->bytes, to->parts.length, NULL, &draft,
                                                      bus->out, bus->out_room, &told);
    } while (answer == DBUS_WIRE_NO_ROOM);
    return answer == DBUS_WIRE_OK &&
           dbus_wire_bus_send(bus->socket, bus->out, told.length, values->fds, draft.unix_fds);
}

/* Frees a message and those after it. */
static inline void dbus_wire_bus_drop(struct dbus_wire_bus_message *it) {
    for (struct dbus_wire_bus_message *after; it != NULL; it = after) {
        after = it->after;
        while (it->fd_count > 0) close(it->fds[--it->fd_count]);
        free(it->items), free(it->bytes), free(it);
    }
}

/* Reads bytes behind so many, up to those that are wanted, and the file descriptors beside them. */
static inline size_t dbus_wire_bus_read(struct dbus_wire_bus *bus, uint8_t *bytes, size_t length,
                                        size_t wanted) {
    union dbus_wire_bus_beside beside = {.bytes = {0}};
    struct iovec room = {bytes + length, wanted - length};
    struct msghdr message = {.msg_iov = &room, .msg_iovlen = 1, .msg_control = &beside};
    message.msg_controllen = sizeof beside;
    ssize_t got = recvmsg(bus->socket, &message, MSG_CMSG_CLOEXEC);
    const int *fds = (const int *)(const void *)CMSG_DATA(&beside.head);
    size_t end = beside.head.cmsg_type == SCM_RIGHTS ? beside.head.cmsg_len : 0;
    for (size_t at = CMSG_LEN(0); at < end; at += sizeof *fds, fds++)
        if (dbus_wire_connection_descriptor(&bus->connection, length) == DBUS_WIRE_OK)
            bus->fds[bus->fd_count++] = *fds;
        else close(*fds), got = 0;
    return got < 0 ? 0 : (size_t)got;
}

/* The next message. NULL if the bus is gone, or as a handshake ends: bus->step.event says which. It
 * reads no byte beyond. */
static inline struct dbus_wire_bus_message *dbus_wire_bus_receive(struct dbus_wire_bus *bus) {
    struct dbus_wire_connection_step *step = &bus->step;
    struct dbus_wire_bus_message *it = dbus_wire_bus_grown(NULL, sizeof *it);
    uint8_t out[DBUS_WIRE_REPLY_ROOM];
    size_t length = 0, got = 1;
    uint64_t count;
    *it = (struct dbus_wire_bus_message){0};
    while (got > 0 &&
           dbus_wire_connection_take(&bus->connection, it->bytes, length, step) == DBUS_WIRE_OK) {
        if (step->event == DBUS_WIRE_EVENT_MESSAGE) {
            it->fd_count = step->unix_fds, bus->fd_count -= step->unix_fds;
            memcpy(it->fds, bus->fds, sizeof it->fds);
            memmove(bus->fds, bus->fds + it->fd_count, bus->fd_count * sizeof *bus->fds);
            while (dbus_wire_read(it->bytes, length, NULL, &it->parts, it->items, it->count,
                                  &it->count, NULL) == DBUS_WIRE_NO_ROOM)
                it->items = dbus_wire_bus_grown(it->items, it->count * sizeof *it->items);
            return it;
        }
        length -= step->count;
        if (step->event == DBUS_WIRE_EVENT_WANTS) {
            it->bytes = dbus_wire_bus_grown(it->bytes, step->wanted);
            while (got > 0 && length < step->wanted)
                length += got = dbus_wire_bus_read(bus, it->bytes, length, step->wanted);
        } else if (dbus_wire_connection_unsent(&bus->connection, out, sizeof out, &count) !=
                       DBUS_WIRE_OK ||
                   !dbus_wire_bus_send(bus->socket, out, count, NULL, 0) ||
                   step->event != DBUS_WIRE_EVENT_UNSENT)
            break;
    }
    return dbus_wire_bus_drop(it), (struct dbus_wire_bus_message *)NULL;
}

/* A call to that name, or else a signal. */
static inline struct dbus_wire_draft
dbus_wire_bus_draft(const char *to, const char *path, const char *interface, const char *member) {
    struct dbus_wire_draft it = {.kind = DBUS_WIRE_TYPE_SIGNAL, .path = dbus_wire_text_of(path)};
    it.interface = dbus_wire_text_of(interface), it.member = dbus_wire_text_of(member);
    if (to != NULL) it.kind = DBUS_WIRE_TYPE_METHOD_CALL, it.destination = dbus_wire_text_of(to);
    return it;
}

/* Sends a call with the values of bus->sent, and waits for its reply. */
static inline int dbus_wire_bus_wait_for(struct dbus_wire_bus *bus, struct dbus_wire_draft call) {
    struct dbus_wire_bus_message *it = NULL, **end = &bus->later;
    uint64_t number;
    if (dbus_wire_connection_call(&bus->connection, call.destination.bytes, call.destination.length,
                                  1, &call.serial) != DBUS_WIRE_OK)
        bus->sent.fault = DBUS_WIRE_NO_VALUE;
    int waits = dbus_wire_bus_send_draft(bus, call, bus->sent.types, &bus->sent);
    while (*end != NULL) end = &(*end)->after;
    while (waits && (it = dbus_wire_bus_receive(bus)) != NULL && !bus->step.is_reply)
        *end = it, end = &it->after;
    dbus_wire_bus_drop(bus->reply), bus->reply = it;
    if (it != NULL) return it->parts.kind == DBUS_WIRE_TYPE_METHOD_RETURN;
    return dbus_wire_connection_give_up(&bus->connection, call.serial, &number) ==
           DBUS_WIRE_NO_CONNECTION;
}

/* Calls a method with values, after their types, and waits for its reply, which is bus->reply, NULL
 * if none came. Whether that is no error. What comes before it stays for dbus_wire_bus_next. A
 * macro, as those below: it uses `bus` more than once. */
#define dbus_wire_bus_call(bus, to, path, interface, member, ...)                                  \
    (dbus_wire_bus_put_to(&(bus)->sent, __VA_ARGS__),                                              \
     dbus_wire_bus_wait_for(bus, dbus_wire_bus_draft(to, path, interface, member)))

/* Calls a method of the bus itself, such as AddMatch. */
#define dbus_wire_bus_ask(bus, ...)                                                                \
    dbus_wire_bus_call(bus, DBUS_WIRE_BUS, "/org/freedesktop/DBus", DBUS_WIRE_BUS, __VA_ARGS__)

/* Has the bus give this connection a name. Whether it did; not if another connection has it. */
static inline int dbus_wire_bus_request_name(struct dbus_wire_bus *bus, const char *name) {
    return dbus_wire_bus_ask(bus, "RequestName", "su", name, 4) && bus->reply->count == 1 &&
           (bus->reply->items[0].number == 1 || bus->reply->items[0].number == 4);
}

/* Serves members of an object, whose functions get `data`. */
static inline void dbus_wire_bus_serve(struct dbus_wire_bus *bus, const char *path,
                                       const struct dbus_wire_bus_member *members, void *data) {
    for (; members->kind != 0; members++) {
        bus->served =
            dbus_wire_bus_grown(bus->served, (bus->served_count + 1) * sizeof *bus->served);
        bus->served[bus->served_count++] = (struct dbus_wire_bus_served){path, members, data};
    }
}

/* Sends a signal with values, after their types. */
#define dbus_wire_bus_emit(bus, path, interface, member, ...)                                      \
    (dbus_wire_bus_put_to(&(bus)->sent, __VA_ARGS__),                                              \
     dbus_wire_bus_send_draft(bus, dbus_wire_bus_draft(NULL, path, interface, member),             \
                              (bus)->sent.types, &(bus)->sent))

/* Whether a member is of the object, and of the interface, which may be "". */
static inline int dbus_wire_bus_is_of(const struct dbus_wire_bus_served *it, const char *path,
                                      const char *interface) {
    return (it->path == NULL || strcmp(it->path, path) == 0) &&
           (*interface == 0 || strcmp(it->member->interface, interface) == 0);
}

/* What a path has behind another that it is or is below: "" or "/..", or NULL. */
static inline const char *dbus_wire_bus_behind(const char *path, const char *front) {
    const size_t length = strcmp(front, "/") == 0 ? 0 : strlen(front);
    int is_below = path != NULL && strncmp(path, front, length) == 0;
    return is_below && strchr("/", path[length]) != NULL ? path + length : NULL;
}

/* Of the object that is called the member of the kind, or any of the interface if that is 0. If
 * there is none, the call fails. */
static inline const struct dbus_wire_bus_served *
dbus_wire_bus_find(struct dbus_wire_bus *bus, char kind, const char *interface, const char *name) {
    static const char *const errors[][2] = {
        {DBUS_WIRE_BUS_ERROR "UnknownObject", "there is no such object"},
        {DBUS_WIRE_BUS_ERROR "UnknownInterface", "there is no such interface"},
        {DBUS_WIRE_BUS_ERROR "UnknownMethod", "there is no such method"},
        {DBUS_WIRE_BUS_ERROR "UnknownProperty", "there is no such property"}};
    const char *path = dbus_wire_bus_field(bus->asked, path);
    int known = strcmp(path, "/") == 0 || strcmp(interface, DBUS_WIRE_BUS ".Peer") == 0;
    /* Of a call that names no interface the object's own come first, which were added last. */
    for (size_t at = bus->served_count; at-- > 0;) {
        const struct dbus_wire_bus_served *it = &bus->served[at];
        if (known == 0) known = dbus_wire_bus_behind(it->path, path) != NULL;
        if (known == 0 || !dbus_wire_bus_is_of(it, path, interface)) continue;
        if (kind == 0 || (it->member->kind == kind && strcmp(it->member->name, name) == 0))
            return it;
        known = kind == 'm' ? 2 : 3;
    }
    return dbus_wire_bus_fail(bus, errors[known][0], errors[known][1]), NULL;
}

/* Puts the properties of an interface, or of these the one of the name, as a{sv}. How many. */
static inline int dbus_wire_bus_put_properties(struct dbus_wire_bus *bus, const char *path,
                                               const char *interface, const char *name) {
    struct dbus_wire_bus_body *to = &bus->given;
    struct dbus_wire_array array;
    int count = 0;
    while (dbus_wire_open_array(to->bytes, to->room, &to->writer, 8, &array) == DBUS_WIRE_NO_ROOM)
        dbus_wire_bus_room(to);
    for (const struct dbus_wire_bus_served *it = bus->served; it < bus->served + bus->served_count;
         it++) {
        if (it->member->kind != 'p' || !dbus_wire_bus_is_of(it, path, interface) ||
            (name != NULL && strcmp(it->member->name, name) != 0))
            continue;
        dbus_wire_bus_put(bus, "(sg)", it->member->name, it->member->gives);
        it->member->get(bus, it->data), count++;
    }
    if (to->fault == DBUS_WIRE_OK)
        to->fault = dbus_wire_close_array(to->bytes, to->room, &to->writer, &array);
    return count;
}

/* Sends PropertiesChanged of a property, with its value. One that a caller sets needs none. */
static inline int dbus_wire_bus_changed(struct dbus_wire_bus *bus, const char *path,
                                        const char *interface, const char *name) {
    struct dbus_wire_draft draft =
        dbus_wire_bus_draft(NULL, path, DBUS_WIRE_BUS ".Properties", "PropertiesChanged");
    struct dbus_wire_bus_body given = bus->given;
    bus->given = bus->sent;
    dbus_wire_bus_put(bus, "s", interface);
    if (dbus_wire_bus_put_properties(bus, path, interface, name) == 0)
        bus->given.fault = DBUS_WIRE_NO_VALUE;
    dbus_wire_bus_put(bus, "as", 0);
    bus->sent = bus->given, bus->given = given;
    return dbus_wire_bus_send_draft(bus, draft, "sa{sv}as", &bus->sent);
}

/* The methods of Properties. */
static inline void dbus_wire_bus_properties(struct dbus_wire_bus *bus, void *data) {
    const struct dbus_wire_bus_message *asked = bus->asked;
    const char *interface = dbus_wire_bus_text(asked, 0), *name = dbus_wire_bus_text(asked, 1);
    const char *path = dbus_wire_bus_field(asked, path);
    const struct dbus_wire_bus_served *it =
        dbus_wire_bus_find(bus, asked->count > 1 ? 'p' : 0, interface, name);
    (void)data;
    if (it == NULL) return;
    if (asked->count == 1) dbus_wire_bus_put_properties(bus, path, interface, NULL);
    else if (asked->count == 2)
        dbus_wire_bus_put(bus, "g", it->member->gives), it->member->get(bus, it->data);
    else if (it->member->set == NULL)
        dbus_wire_bus_fail(bus, DBUS_WIRE_BUS_ERROR "PropertyReadOnly", "it cannot be set");
    else if (strcmp(dbus_wire_bus_text(asked, 2), it->member->gives) != 0)
        dbus_wire_bus_fail(bus, DBUS_WIRE_BUS_ERROR "InvalidArgs", "the property has another type");
    else it->member->set(bus, it->data);
    if (asked->count > 2 && bus->error == NULL)
        dbus_wire_bus_changed(bus, path, it->member->interface, name);
}

static inline void dbus_wire_bus_machine(struct dbus_wire_bus *bus, void *data) {
    char id[33] = "";
    FILE *file = fopen("/etc/machine-id", "r");
    (void)data;
    if (file == NULL || fscanf(file, "%32s", id) != 1)
        dbus_wire_bus_fail(bus, DBUS_WIRE_BUS_ERROR "Failed", "the machine has no ID");
    if (file != NULL) fclose(file);
    dbus_wire_bus_put(bus, "s", id);
}

static inline void dbus_wire_bus_describe(FILE *out, const struct dbus_wire_bus_member *it) {
    const char *kind = it->kind == 'm' ? "method" : it->kind == 's' ? "signal" : "property";
    const char *types = it->kind == 'm' ? it->takes : "", *end;
    fprintf(out, "<%s name='%s'", kind, it->name);
    if (it->kind == 'p')
        fprintf(out, " type='%s' access='read%s'", it->gives, it->set ? "write" : "");
    fputs(">", out);
    for (int is_out = 0; is_out < 2 && it->kind != 'p'; is_out++, types = it->gives)
        for (; *types != 0; types = end) {
            end = dbus_wire_type_end(types);
            fprintf(out, "<arg type='%.*s' direction='%s'/>", (int)(end - types), types,
                    is_out ? "out" : "in");
        }
    fprintf(out, "</%s>", kind);
}

static inline void dbus_wire_bus_introspect(struct dbus_wire_bus *bus, void *data) {
    const char *path = dbus_wire_bus_field(bus->asked, path), *now = "";
    const struct dbus_wire_bus_served *it, *end = bus->served + bus->served_count;
    size_t size, width = 0;
    char *text = NULL;
    FILE *out = open_memstream(&text, &size);
    if (out == NULL) abort();
    fputs("<node>", out);
    for (it = bus->served; it < end; it++) {
        if (!dbus_wire_bus_is_of(it, path, "")) continue;
        if (strcmp(now, it->member->interface) != 0)
            fprintf(out, "%s<interface name='%s'>", *now ? "</interface>" : "",
                    it->member->interface);
        dbus_wire_bus_describe(out, it->member), now = it->member->interface;
    }
    fputs("</interface>", out), now = "";
    for (it = bus->served; it < end; it++) {
        const char *below = dbus_wire_bus_behind(it->path, path);
        const size_t length = below != NULL && *below != 0 ? strcspn(below + 1, "/") : 0;
        if (length == 0 || (length == width && strncmp(now, below + 1, width) == 0)) continue;
        now = below + 1, width = length;
        fprintf(out, "<node name='%.*s'/>", (int)width, now);
    }
    fputs("</node>", out);
    if (fclose(out) != 0) abort();
    (void)data, dbus_wire_bus_put(bus, "s", text), free(text);
}

/* D-Bus Specification, "Standard Interfaces". */
static const struct dbus_wire_bus_member dbus_wire_bus_standard[] = {
    {'m', DBUS_WIRE_BUS ".Peer", "Ping", "", "", NULL, NULL},
    {'m', DBUS_WIRE_BUS ".Peer", "GetMachineId", "", "s", dbus_wire_bus_machine, NULL},
    {'m', DBUS_WIRE_BUS ".Introspectable", "Introspect", "", "s", dbus_wire_bus_introspect, NULL},
    {'m', DBUS_WIRE_BUS ".Properties", "Get", "ss", "v", dbus_wire_bus_properties, NULL},
    {'m', DBUS_WIRE_BUS ".Properties", "GetAll", "s", "a{sv}", dbus_wire_bus_properties, NULL},
    {'m', DBUS_WIRE_BUS ".Properties", "Set", "ssv", "", dbus_wire_bus_properties, NULL},
    {'s', DBUS_WIRE_BUS ".Properties", "PropertiesChanged", "", "sa{sv}as", NULL, NULL},
    {0}};

/* Answers the call at hand. */
static inline int dbus_wire_bus_answer(struct dbus_wire_bus *bus) {
    const struct dbus_wire_bus_message *asked = bus->asked;
    struct dbus_wire_draft reply = {0};
    dbus_wire_bus_clear(&bus->given, asked->parts.order), bus->error = NULL;
    const struct dbus_wire_bus_served *it = dbus_wire_bus_find(
        bus, 'm', dbus_wire_bus_field(asked, interface), dbus_wire_bus_field(asked, member));
    if (it != NULL && strcmp(dbus_wire_bus_field(asked, signature), it->member->takes) != 0)
        dbus_wire_bus_fail(bus, DBUS_WIRE_BUS_ERROR "InvalidArgs", "the method takes other types");
    else if (it != NULL && it->member->get != NULL) it->member->get(bus, it->data);
    if (bus->error == NULL && bus->given.fault != DBUS_WIRE_OK)
        dbus_wire_bus_fail(bus, DBUS_WIRE_BUS_ERROR "Failed", "the reply has no such values");
    if (asked->parts.flags & DBUS_WIRE_FLAG_NO_REPLY_EXPECTED) return 1;
    if (bus->error == NULL)
        return dbus_wire_bus_send_draft(bus, reply, it->member->gives, &bus->given);
    dbus_wire_bus_clear(&bus->given, asked->parts.order), dbus_wire_bus_put(bus, "s", bus->text);
    reply.error_name = dbus_wire_text_of(bus->error);
    return dbus_wire_bus_send_draft(bus, reply, "s", &bus->given);
}

/* Answers calls until another message comes, such as a signal, which is bus->asked then. 0 if the
 * bus is gone. */
static inline int dbus_wire_bus_next(struct dbus_wire_bus *bus) {
    do {
        dbus_wire_bus_drop(bus->asked);
        bus->asked = bus->later != NULL ? bus->later : dbus_wire_bus_receive(bus);
        if (bus->asked == NULL) return 0;
        bus->later = bus->asked->after, bus->asked->after = NULL;
        if (bus->asked->parts.kind != DBUS_WIRE_TYPE_METHOD_CALL) return 1;
    } while (dbus_wire_bus_answer(bus));
    return 0;
}

static inline void dbus_wire_bus_close(struct dbus_wire_bus *bus) {
    if (bus == NULL) return;
    if (bus->socket >= 0) close(bus->socket);
    while (bus->fd_count > 0) close(bus->fds[--bus->fd_count]);
    dbus_wire_bus_drop(bus->asked), dbus_wire_bus_drop(bus->reply), dbus_wire_bus_drop(bus->later);
    dbus_wire_connection_free(&bus->connection), free(bus->served), free(bus->out);
    free(bus->given.bytes), free(bus->sent.bytes), free(bus);
}

/* Of an address the value of a key, with a 0 behind it: its length, or 0 if it is not there. */
static inline size_t dbus_wire_bus_value_of(const char *text, uint64_t number, const char *key,
                                            char *out, size_t room) {
    uint64_t count;
    uint32_t answer = dbus_wire_address_value(text, strlen(text), number, key, strlen(key),
                                              (uint8_t *)out, room, &count);
    return answer == DBUS_WIRE_OK ? count : 0;
}

/* A socket that is connected to the first of the server addresses that takes a connection, of those
 * that are Unix sockets; or -1. */
static inline int dbus_wire_bus_connect(const char *text) {
    const char *folder = getenv("XDG_RUNTIME_DIR");
    const size_t before = offsetof(struct sockaddr_un, sun_path);
    struct dbus_wire_addresses told;
    uint64_t count;
    uint8_t kind[8];
    if (dbus_wire_address_check(text, strlen(text), &told) != DBUS_WIRE_OK) return -1;
    for (uint64_t number = 0; number < told.count; number++) {
        struct sockaddr_un address = {.sun_family = AF_UNIX};
        char *name = address.sun_path, yes[8];
        size_t room = sizeof address.sun_path, length;
        if ((length = dbus_wire_bus_value_of(text, number, "abstract", name + 1, room - 1)) > 0)
            length++;
        else if (dbus_wire_bus_value_of(text, number, "runtime", yes, sizeof yes) == 0)
            length = dbus_wire_bus_value_of(text, number, "path", name, room);
        else if (strcmp(yes, "yes") == 0 && folder != NULL)
            length = (size_t)snprintf(name, room, "%s/bus", folder);
        if (length == 0 || length > room ||
            dbus_wire_address_transport(text, strlen(text), number, kind, sizeof kind, &count) !=
                DBUS_WIRE_OK ||
            strcmp((char *)kind, "unix") != 0)
            continue;
        int found = socket(AF_UNIX, SOCK_STREAM | SOCK_CLOEXEC, 0);
        if (found >= 0 &&
            connect(found, (struct sockaddr *)&address, (socklen_t)(before + length)) == 0)
            return found;
        if (found >= 0) close(found);
    }
    return -1;
}

/* One side of a connection over the socket, of an end of a handshake, which it then keeps: it has
 * begun. NULL if there is no socket, or if the handshake failed. It closes the socket. */
static inline struct dbus_wire_bus *dbus_wire_bus_over(int socket,
                                                       struct dbus_wire_handshake *end) {
    struct dbus_wire_bus *bus = dbus_wire_bus_grown(NULL, sizeof *bus);
    *bus = (struct dbus_wire_bus){.socket = socket};
    dbus_wire_bus_serve(bus, NULL, dbus_wire_bus_standard, NULL);
    if (socket >= 0 && dbus_wire_handshake_bound(end, 6, 6) == DBUS_WIRE_OK &&
        dbus_wire_connection_new(end, NULL, UINT32_MAX, 128, &bus->connection) == DBUS_WIRE_OK)
        dbus_wire_bus_receive(bus);
    dbus_wire_handshake_free(end), bus->passes_fds = bus->step.descriptors == 1;
    if (bus->step.event == DBUS_WIRE_EVENT_BEGUN) return bus;
    return dbus_wire_bus_close(bus), (struct dbus_wire_bus *)NULL;
}

/* A connection to the bus at these addresses, which has not said Hello; NULL if there is none. */
static inline struct dbus_wire_bus *dbus_wire_bus_join(const char *addresses, int passes_fds) {
    struct dbus_wire_mechanisms own = {DBUS_WIRE_EXTERNAL_AS_USER, getuid(), 0, passes_fds != 0};
    struct dbus_wire_handshake client = {0};
    if (dbus_wire_client_new(&own, NULL, 0, &client) != DBUS_WIRE_OK) abort();
    return dbus_wire_bus_over(dbus_wire_bus_connect(addresses), &client);
}

/* The same, which has said Hello. */
static inline struct dbus_wire_bus *dbus_wire_bus_open(const char *addresses) {
    struct dbus_wire_bus *bus = dbus_wire_bus_join(addresses, 1);
    if (bus == NULL || dbus_wire_bus_ask(bus, "Hello", "")) return bus;
    return dbus_wire_bus_close(bus), (struct dbus_wire_bus *)NULL;
}

/* The session bus: of DBUS_SESSION_BUS_ADDRESS, or else in XDG_RUNTIME_DIR. */
static inline struct dbus_wire_bus *dbus_wire_bus_session(void) {
    const char *addresses = getenv("DBUS_SESSION_BUS_ADDRESS");
    return dbus_wire_bus_open(addresses ? addresses : "unix:runtime=yes");
}

/* The system bus: of DBUS_SYSTEM_BUS_ADDRESS, or else of the specification. */
static inline struct dbus_wire_bus *dbus_wire_bus_system(void) {
    const char *addresses = getenv("DBUS_SYSTEM_BUS_ADDRESS");
    return dbus_wire_bus_open(addresses ? addresses : "unix:path=/var/run/dbus/system_bus_socket");
}

#endif
