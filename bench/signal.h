/* The signal PropertiesChanged of a service that has started, spelled by the calls for C value after value and built of that: the same
 * as crates/examples/src/signal.rt makes of trees. */
#include <dbus_wire.h>
#include <string.h>

enum { SIGNAL_LENGTH = 897, SIGNAL_ROOM = 1024 };

/* The properties that changed, each with the type of what it is now. */
static const struct changed {
    const char *name, *type, *text;
    uint64_t number;
} CHANGED[] = {
    {"ActiveState", "s", "active", 0},
    {"SubState", "s", "running", 0},
    {"StateChangeTimestamp", "t", NULL, 1764126000000000},
    {"StateChangeTimestampMonotonic", "t", NULL, 12345678},
    {"InactiveExitTimestamp", "t", NULL, 1764125999000000},
    {"ActiveEnterTimestamp", "t", NULL, 1764126000000000},
    {"MainPID", "u", NULL, 1234},
    {"NRestarts", "u", NULL, 0},
    {"NotifyAccess", "s", "main", 0},
    {"StatusText", "s", "Processing requests....", 0},
    {"ControlGroup", "s", "/system.slice/dbus.service", 0},
    {"ConditionResult", "b", NULL, 1},
    {"AssertResult", "b", NULL, 1},
    {"MemoryCurrent", "t", NULL, 4194304},
    {"TasksCurrent", "t", NULL, 3},
    {"CPUUsageNSec", "t", NULL, 98765432},
    {"IPIngressBytes", "t", NULL, 65536},
};
/* Those that changed to something that is not told. */
static const char *const INVALIDATED[] = {"ExecStart", "ExecStop", "ExecMainStatus", "ExecMainCode"};

/* The body. */
static uint8_t spelled[SIGNAL_ROOM];

static int put_text(struct dbus_wire_writer *body, const char *text) {
    return dbus_wire_put_text(spelled, sizeof spelled, body, text, strlen(text)) == DBUS_WIRE_OK;
}

static int put_changed(struct dbus_wire_writer *body, const struct changed *it) {
    return dbus_wire_begin_struct(spelled, sizeof spelled, body) == DBUS_WIRE_OK && put_text(body, it->name)
        && dbus_wire_put_signature(spelled, sizeof spelled, body, it->type, 1) == DBUS_WIRE_OK
        && (it->text ? put_text(body, it->text)
                     : dbus_wire_put_number(spelled, sizeof spelled, body, *it->type == 't' ? 8 : 4, it->number) == DBUS_WIRE_OK);
}

/* Its values, `sa{sv}as`. */
static int put_body(struct dbus_wire_writer *body) {
    struct dbus_wire_array array;
    size_t i;
    if (!put_text(body, "org.freedesktop.systemd1.Service")
        || dbus_wire_open_array(spelled, sizeof spelled, body, 8, &array) != DBUS_WIRE_OK)
        return 0;
    for (i = 0; i < sizeof CHANGED / sizeof *CHANGED; i++)
        if (!put_changed(body, CHANGED + i)) return 0;
    if (dbus_wire_close_array(spelled, sizeof spelled, body, &array) != DBUS_WIRE_OK
        || dbus_wire_open_array(spelled, sizeof spelled, body, 4, &array) != DBUS_WIRE_OK)
        return 0;
    for (i = 0; i < sizeof INVALIDATED / sizeof *INVALIDATED; i++)
        if (!put_text(body, INVALIDATED[i])) return 0;
    return dbus_wire_close_array(spelled, sizeof spelled, body, &array) == DBUS_WIRE_OK;
}

/* Whether the signal was spelled and built. */
static int signal_built(void) {
    static uint8_t out[SIGNAL_ROOM];
    struct dbus_wire_writer body = {0, 'l', 0};
    struct dbus_wire_draft draft = {.order = 'l', .kind = DBUS_WIRE_TYPE_SIGNAL, .serial = 1, .body = spelled};
    struct dbus_wire_checked told;
    if (!put_body(&body)) return 0;
    draft.path = dbus_wire_text_of("/org/freedesktop/systemd1/unit/dbus_2eservice");
    draft.interface = dbus_wire_text_of("org.freedesktop.DBus.Properties");
    draft.member = dbus_wire_text_of("PropertiesChanged");
    draft.sender = dbus_wire_text_of(":1.3");
    draft.signature = dbus_wire_text_of("sa{sv}as");
    draft.body_length = body.length;
    return dbus_wire_build(&draft, NULL, out, sizeof out, &told) == DBUS_WIRE_OK && told.length == SIGNAL_LENGTH;
}
