/* Passes Unix file descriptors over the session bus. `descriptors` is the service
 * org.example.Echo, whose method Swap returns two descriptors in the other order. `descriptors
 * FILE` calls it with one of the file and one of standard input, and writes what it reads from
 * the second that comes back. */
#include <dbus_wire_bus.h>
#include <fcntl.h>

#define NAME "org.example.Echo"

static void swap(struct dbus_wire_bus *bus, void *data) {
    uint32_t first = dbus_wire_bus_pass(&bus->given, dbus_wire_bus_fd(bus->asked, 1));
    uint32_t second = dbus_wire_bus_pass(&bus->given, dbus_wire_bus_fd(bus->asked, 0));
    (void)data;
    dbus_wire_bus_put(bus, "hh", first, second);
}

static int ask(struct dbus_wire_bus *bus, const char *path) {
    uint32_t first = dbus_wire_bus_pass(&bus->sent, open(path, O_RDONLY | O_CLOEXEC));
    uint32_t second = dbus_wire_bus_pass(&bus->sent, STDIN_FILENO);
    char piece[4096];
    ssize_t count;
    if (!dbus_wire_bus_call(bus, NAME, "/", NAME, "Swap", "hh", first, second)) return 1;
    while ((count = read(dbus_wire_bus_fd(bus->reply, 1), piece, sizeof piece)) > 0)
        fwrite(piece, 1, (size_t)count, stdout);
    return count != 0;
}

int main(int count, char **words) {
    static const struct dbus_wire_bus_member members[] = {
        {'m', NAME, "Swap", "hh", "hh", swap, NULL}, {0}};
    struct dbus_wire_bus *bus = dbus_wire_bus_session();
    if (bus == NULL) return 1;
    if (count > 1) {
        int status = ask(bus, words[1]);
        dbus_wire_bus_close(bus);
        return status;
    }
    if (!dbus_wire_bus_request_name(bus, NAME)) return 1;
    dbus_wire_bus_serve(bus, "/", members, NULL);
    while (dbus_wire_bus_next(bus)) {
    }
    dbus_wire_bus_close(bus);
}
