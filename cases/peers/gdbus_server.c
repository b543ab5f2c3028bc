/* A server of GDBus at the address that is its word. */
#include <gio/gio.h>

static gboolean keep(GDBusServer *server, GDBusConnection *connection, gpointer unused) {
    (void)server, (void)unused;
    return g_object_ref(connection) != NULL;
}

int main(int count, char **words) {
    char *guid = g_dbus_generate_guid();
    GDBusServer *server = g_dbus_server_new_sync(words[count - 1], G_DBUS_SERVER_FLAGS_NONE, guid, NULL, NULL, NULL);
    if (!server)
        return 1;
    g_signal_connect(server, "new-connection", G_CALLBACK(keep), NULL);
    g_dbus_server_start(server);
    g_main_loop_run(g_main_loop_new(NULL, FALSE));
    return 0;
}
