/* sd-bus. No public call reads a block of bytes, so it gets them from a socket, behind the answers of a server that lets it in. It
 * drops a message that it refuses, or ends the connection. It looks at a body only as its values are asked for: all are dumped. */
#include <stdio.h>
#include <sys/ioctl.h>
#include <sys/socket.h>
#include <systemd/sd-bus.h>
#include <unistd.h>

#include "peer.h"

enum answer judge(const unsigned char *bytes, size_t size, struct said *said) {
    static const char LET_IN[] = "DATA\r\nOK 0123456789abcdef0123456789abcdef\r\nERROR\r\n", LOCAL[] = "org.freedesktop.DBus.Local";
    sd_bus *bus = NULL;
    sd_bus_message *message = NULL;
    int ends[2], left = 0, status = 1;
    if (socketpair(AF_UNIX, SOCK_STREAM, 0, ends) < 0 || write(ends[0], LET_IN, sizeof LET_IN - 1) < 0 || write(ends[0], bytes, size) < 0 ||
        sd_bus_new(&bus) < 0 || sd_bus_set_fd(bus, ends[1], ends[1]) < 0 || sd_bus_start(bus) < 0)
        _exit(1);
    for (int step = 0; step < 64 && status > 0 && !message; step++)
        status = sd_bus_process(bus, &message);
    if (status >= 0 && !message && (size < 16 || size < stated_length(bytes)))
        return PARTIAL;
    if (status >= 0 && message && !sd_bus_message_is_signal(message, LOCAL, "Disconnected"))
        status = sd_bus_message_dump(message, fopen("/dev/null", "w"), 0);
    snprintf(said->why, sizeof said->why, "%s", !message ? "drops the message" : status < 0 ? "gives not all values" : "ends the connection");
    said->length = ioctl(ends[1], FIONREAD, &left) < 0 ? 0 : size - (size_t)left;
    return status < 0 || !message || sd_bus_message_is_signal(message, LOCAL, "Disconnected") ? REFUSED : WHOLE;
}
