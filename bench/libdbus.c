/* Reads the messages of standard input by libdbus: what bench/instructions.sh and bench/commands.sh measure the commands beside. */
#include "peer.h"
#include <dbus/dbus.h>

static size_t read_one(unsigned char *bytes, size_t size) {
    int length = dbus_message_demarshal_bytes_needed((const char *)bytes, (int)size);
    DBusMessage *message = NULL;
    DBusError fault;
    dbus_error_init(&fault);
    if (length > 0 && (size_t)length <= size)
        message = dbus_message_demarshal((const char *)bytes, length, &fault);
    if (!message) {
        dbus_error_free(&fault);
        return 0;
    }
    dbus_message_unref(message);
    return (size_t)length;
}

int main(void) {
    return read_messages(read_one);
}
