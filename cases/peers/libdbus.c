/* libdbus, by the calls that read a message of a block of bytes. */
#include <dbus/dbus.h>
#include <stdio.h>

#include "peer.h"

enum answer judge(const unsigned char *bytes, size_t size, struct said *said) {
    const char *block = (const char *)bytes;
    DBusError fault = DBUS_ERROR_INIT;
    DBusMessage *message;
    int needed = dbus_message_demarshal_bytes_needed(block, (int)size);
    if (needed < 0)
        return REFUSED;
    /* 0 if it wants 16 bytes first. */
    if (needed == 0 || (size_t)needed > size)
        return PARTIAL;
    message = dbus_message_demarshal(block, needed, &fault);
    if (!message) {
        snprintf(said->why, sizeof said->why, "%s", fault.message);
        dbus_error_free(&fault);
        return REFUSED;
    }
    dbus_message_unref(message);
    said->length = (size_t)needed;
    return WHOLE;
}
