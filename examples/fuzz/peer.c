/* The other parser is libdbus, GDBus or sd-bus: link this with one of libdbus.c, gdbus.c and
 * sdbus.c in cases/peers, and its library. They look at a message once all of it is there, so that
 * bytes of which they want more may be refused here. Where else they are known to differ,
 * docs/PEERS.md says; the first such bytes end the run. */
#include "../../cases/peers/peer.h"
#include "fuzz.h"

#include <dbus_wire.h>

uint32_t their_check(const uint8_t *bytes, size_t length) {
    static const uint32_t answers[] = {[WHOLE] = DBUS_WIRE_WHOLE, [PARTIAL] = THEIRS_NOT_WHOLE, [REFUSED] = DBUS_WIRE_REFUSED};
    struct said said = {0, ""};
    return answers[judge(bytes, length, &said)];
}
