/* Is the service org.example.Counter on the session bus: a method with an error of its own, two
 * properties, and two signals. */
#include <dbus_wire_bus.h>

#define PATH "/org/example/Counter"
#define NAME "org.example.Counter"

struct counter {
    uint32_t value;
    char label[256];
};

static void add(struct dbus_wire_bus *bus, void *data) {
    struct counter *counter = data;
    uint64_t sum = counter->value + bus->asked->items[0].number;
    if (sum > UINT32_MAX) {
        dbus_wire_bus_fail(bus, "org.example.Error.Overflow", "the sum has over 32 bits");
        return;
    }
    counter->value = (uint32_t)sum;
    dbus_wire_bus_emit(bus, PATH, NAME, "Changed", "u", counter->value);
    dbus_wire_bus_changed(bus, PATH, NAME, "Value");
    dbus_wire_bus_put(bus, "u", counter->value);
}

static void get_value(struct dbus_wire_bus *bus, void *data) {
    dbus_wire_bus_put(bus, "u", ((struct counter *)data)->value);
}

static void get_label(struct dbus_wire_bus *bus, void *data) {
    dbus_wire_bus_put(bus, "s", ((struct counter *)data)->label);
}

static void set_label(struct dbus_wire_bus *bus, void *data) {
    char *label = ((struct counter *)data)->label;
    if (bus->asked->items[3].length >= sizeof((struct counter *)data)->label)
        dbus_wire_bus_fail(bus, DBUS_WIRE_BUS_ERROR "InvalidArgs", "the label is too long");
    else strcpy(label, dbus_wire_bus_text(bus->asked, 3));
}

int main(void) {
    static const struct dbus_wire_bus_member members[] = {
        {'m', NAME, "Add", "u", "u", add, NULL},
        {'s', NAME, "Changed", "", "u", NULL, NULL},
        {'p', NAME, "Value", "", "u", get_value, NULL},
        {'p', NAME, "Label", "", "s", get_label, set_label},
        {0},
    };
    struct counter counter = {0, "none"};
    struct dbus_wire_bus *bus = dbus_wire_bus_session();
    if (bus == NULL || !dbus_wire_bus_request_name(bus, NAME)) return 1;
    dbus_wire_bus_serve(bus, PATH, members, &counter);
    while (dbus_wire_bus_next(bus)) {
    }
    dbus_wire_bus_close(bus);
}
