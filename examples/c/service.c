/* Is the service org.example.Load on the session bus: its method Get returns this machine's load. */
#include <dbus_wire_bus.h>

static void get(struct dbus_wire_bus *bus, void *data) {
    double load = 0;
    (void)data;
    if (getloadavg(&load, 1) != 1) dbus_wire_bus_fail(bus, "org.example.Error.NoLoad", "the load is not known");
    dbus_wire_bus_put(bus, "a{sv}", 1, "Load", "d", load);
}

int main(void) {
    static const struct dbus_wire_bus_member load[] = {{'m', "org.example.Load", "Get", "", "a{sv}", get, NULL}, {0}};
    struct dbus_wire_bus *bus = dbus_wire_bus_session();
    if (bus == NULL || !dbus_wire_bus_request_name(bus, "org.example.Load")) return 1;
    dbus_wire_bus_serve(bus, "/org/example/Load", load, NULL);
    while (dbus_wire_bus_next(bus)) {}
    dbus_wire_bus_close(bus);
}
