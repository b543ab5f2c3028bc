#!/usr/bin/env bash
# packaging/installed_test.sh [DEB..]: unpacks the packages in a folder of their own, and uses what is there alone; without packages, what is
# installed. It builds the examples for C over the shared and over the static library and runs them, and the program, the module for Python, the
# manual pages and the completions. What they say of a message that an example makes is compared.
set -euo pipefail
here=$(cd "$(dirname "$0")" && pwd)
room=$(mktemp -d) root=
trap 'rm -rf "$room"' EXIT
libraries=/usr/lib/$(dpkg-architecture -qDEB_HOST_MULTIARCH)
if [ $# -gt 0 ]; then
    root=$room/root libraries=$room/root$libraries
    for package in "$@"; do
        dpkg-deb --extract "$package" "$root"
    done
    export LD_LIBRARY_PATH=$libraries PKG_CONFIG_SYSROOT_DIR=$root PKG_CONFIG_LIBDIR=$libraries/pkgconfig PYTHONPATH=$root/usr/lib/python3/dist-packages
fi
export PYTHONDONTWRITEBYTECODE=1 PATH=$root/usr/bin:/usr/bin:/bin
unset DBUS_WIRE_LIBRARY

# must TEXT WORD..: ends if the command does not write the text.
must() {
    local wanted=$1 written
    shift
    written=$("$@") || { echo "failed: $*" >&2; exit 1; }
    [ "$written" = "$wanted" ] || { printf '%s writes\n%s\nand not\n%s\n' "$*" "$written" "$wanted" >&2; exit 1; }
}

build() {
    local to=$1
    shift
    mkdir "$to"
    for example in "$root"/usr/share/doc/libdbus-wire-dev/examples/*.c; do
        # The words of pkg-config are apart, here and below.
        # shellcheck disable=SC2046
        "${CC:-cc}" -std=c99 -O2 -Wall -Werror -pthread $(pkg-config --cflags dbus-wire) \
            -o "$to/$(basename "$example" .c)" "$example" "$@"
    done
}
# shellcheck disable=SC2046
build "$room/shared" $(pkg-config --libs dbus-wire)
build "$room/static" "$libraries/libdbus_wire.a"
ldd "$room/shared/check" | grep -q "=> $root/.*/libdbus_wire.so.0"

cd "$room"
for built in shared static; do
    bin=$room/$built
    "$bin/signal" Name "a b" Number 7 > one
    cat one one > two
    "$bin/swap" B < two > swapped
    must "ok 2 messages $(stat -c %s two) bytes" "$bin/check" < two
    must "$(dbus-wire check < two)" "$bin/check" < two
    must "$(dbus-wire check < two)" "$bin/pieces" 7 < two
    must "$(dbus-wire show < two)" "$bin/list" < two
    dbus-wire swap --to B < two | cmp - swapped
    "$bin/build" again < swapped | cmp - swapped
    "$bin/rules" "member='PropertiesChanged'" < two | cmp - two
    "$bin/rules" "member='Other'" < two | cmp - /dev/null
    # The quotes are those of a match rule.
    # shellcheck disable=SC2089,SC2090
    for words in room threads "sharing type='signal'" habits "handshake pieces 7"; do
        "$bin/"$words < two > said
    done
    must "accepted" "$bin/texts" <<< "1 6162"
    printf '\0AUTH EXTERNAL 31303030\r\nBEGIN\r\nl' | "$bin/lines" client | grep -qx '24 AUTH EXTERNAL 31303030'
done
must "dbus-wire $(pkg-config --modversion dbus-wire)" dbus-wire --version
dbus-wire json < one | grep -q '"a b"'
must "PropertiesChanged" /usr/bin/python3 -c 'import dbus_wire; print(next(dbus_wire.messages(open("one", "rb").read())).member)'
for page in dbus-wire.1 dbus-record.1 dbus-join.1 dbus_wire.3 dbus_wire_check.3 dbus_wire_reason_text.3; do
    MANPATH=$root/usr/share/man man --warnings "${page#*.}" "${page%.*}" 2> said > page
    test -s page && test ! -s said
done
if command -v dbus-run-session > /dev/null; then
    # It ends when it is told to.
    dbus-run-session -- timeout 2 dbus-record recorded || true
    dbus-wire list --width 0 < recorded | grep -q 'GetNameOwner("org.freedesktop.DBus")'
fi
if command -v jq > /dev/null; then
    printf '\0AUTH ANONYMOUS\r\nBEGIN\r\n' > sent
    dbus-wire encode <<< '{"type":"method_call","serial":2,"path":"/a","member":"C"}' >> sent
    printf 'OK %032d\r\n' 0 > got
    dbus-wire encode <<< '{"type":"method_return","serial":9,"reply_serial":2,"destination":":1.7"}' >> got
    dbus-join sent got | dbus-wire calls > said
    must "1" grep -c ':1.7 > .* reply #2' said
fi
env PATH="/usr/bin:/bin" "$here/../completions/test.py" "$root/"
echo "the packages do what they should"
