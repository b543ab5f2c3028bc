/* Reads the messages of standard input by GDBus: what bench/commands.sh measures the commands beside. */
#include "peer.h"
#include <gio/gio.h>

static size_t read_one(unsigned char *bytes, size_t size) {
    gssize length = g_dbus_message_bytes_needed(bytes, size, NULL);
    GDBusMessage *message = NULL;
    if (length > 0 && (size_t)length <= size)
        message = g_dbus_message_new_from_blob(bytes, (gsize)length, G_DBUS_CAPABILITY_FLAGS_NONE, NULL);
    if (!message)
        return 0;
    g_object_unref(message);
    return (size_t)length;
}

int main(void) {
    return read_messages(read_one);
}
