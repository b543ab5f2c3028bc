/* The owners of all names at a bus, kept with match rules: a connection of its own asks the bus for
 * them, and is told each change. So each is known before a client's first message is looked at. */
#include <dbus_wire_bus.h>
#include <poll.h>

static void fail(const char *what) {
    fprintf(stderr, "%s\n", what);
    exit(1);
}

static void note_owner(struct dbus_wire_rules *rules, const char *name, const char *owner) {
    if (dbus_wire_rules_owner(rules, name, strlen(name), owner, strlen(owner)) != DBUS_WIRE_OK)
        fail("no owner is noted");
}

/* Notes what the bus told since the last call, if the bus itself sent it. */
static void hear(struct dbus_wire_rules *rules, struct dbus_wire_bus *bus) {
    struct pollfd there = {bus->socket, POLLIN, 0};
    while (bus->later != NULL || poll(&there, 1, 0) > 0) {
        struct dbus_wire_bus_message *it = bus->later;
        if (it != NULL) bus->later = it->after;
        else if ((it = dbus_wire_bus_receive(bus)) == NULL) fail("the bus is gone");
        if (dbus_wire_text_is(it->bytes, it->parts.sender, DBUS_WIRE_BUS) &&
            dbus_wire_text_is(it->bytes, it->parts.member, "NameOwnerChanged"))
            note_owner(rules, dbus_wire_bus_text(it, 0), dbus_wire_bus_text(it, 2));
        dbus_wire_bus_drop(it);
    }
}

/* A connection to the bus, of which the owners of all names are noted. What is told meanwhile is
 * heard after that, and so stands. */
static struct dbus_wire_bus *know_owners(struct dbus_wire_rules *rules, const char *addresses) {
    struct dbus_wire_bus *bus = dbus_wire_bus_open(addresses);
    if (bus == NULL) fail("no bus");
    if (!dbus_wire_bus_ask(bus, "AddMatch", "s",
                           "type='signal',sender='" DBUS_WIRE_BUS "',member='NameOwnerChanged'"))
        fail("no match");
    if (!dbus_wire_bus_ask(bus, "ListNames", "")) fail("no names");
    struct dbus_wire_bus_message *names = bus->reply;
    bus->reply = NULL;
    for (uint64_t at = 1; at < names->count; at++) {
        const char *name = dbus_wire_bus_text(names, at);
        if (*name == ':') continue;
        int is_owned = dbus_wire_bus_ask(bus, "GetNameOwner", "s", name);
        note_owner(rules, name, is_owned ? dbus_wire_bus_text(bus->reply, 0) : "");
    }
    dbus_wire_bus_drop(names);
    return bus;
}
