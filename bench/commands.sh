#!/usr/bin/env bash
# bench/commands.sh PROGRAM: the MB per second of each command of PROGRAM, by speed.py; and of libdbus and GDBus, which parse each
# message and free it, if their headers are there.
set -euo pipefail
program=$1 here=$(cd "$(dirname "$0")" && pwd)
folder=$(mktemp -d)
trap 'rm -rf "$folder"' EXIT
peers=()
# Builds a peer's program over a package, if that is there.
build_peer() {
    local flags
    if flags=$(pkg-config --cflags --libs "$2" 2> /dev/null); then
        # shellcheck disable=SC2086
        cc -O2 "$here/$1.c" -o "$folder/$1" $flags
        peers+=("$folder/$1")
    fi
}
build_peer libdbus dbus-1
build_peer gdbus gio-2.0
"$here/speed.py" "$program" "${peers[@]}"
