/* GDBus, by the calls that read a message of a block of bytes. */
#include <gio/gio.h>

#include "peer.h"

static GDBusMessage *read_message(const unsigned char *bytes, size_t size, size_t *length, GError **fault) {
    /* g_dbus_message_bytes_needed asks for 16 bytes. */
    gssize needed = size < 16 ? 16 : g_dbus_message_bytes_needed((guchar *)bytes, size, fault);
    *length = (size_t)needed;
    if (needed < 0 || (size_t)needed > size)
        return NULL;
    return g_dbus_message_new_from_blob((guchar *)bytes, *length, G_DBUS_CAPABILITY_FLAGS_UNIX_FD_PASSING, fault);
}

enum answer judge(const unsigned char *bytes, size_t size, struct said *said) {
    GError *fault = NULL;
    GDBusMessage *message = read_message(bytes, size, &said->length, &fault);
    if (fault)
        g_strlcpy(said->why, fault->message, sizeof said->why);
    if (message)
        g_object_unref(message);
    return message ? WHOLE : fault ? REFUSED : PARTIAL;
}

unsigned char *again(const unsigned char *bytes, size_t size, size_t *length) {
    GDBusMessage *message = read_message(bytes, size, length, NULL);
    return message ? g_dbus_message_to_blob(message, length, G_DBUS_CAPABILITY_FLAGS_UNIX_FD_PASSING, NULL) : NULL;
}
