#!/usr/bin/env bash
# bench/instructions.sh PROGRAM: instructions per byte of each command of PROGRAM, as valgrind counts them, over the sample captures
# and the shapes of bench/shapes.py, then over its worst shapes; and of a check in plain C (bench/plain_check.c), and of libdbus, which
# parses each message and frees it, if its headers are there. They do not depend on what else the machine does.
set -euo pipefail
program=$1 here=$(cd "$(dirname "$0")" && pwd)
folder=$(mktemp -d)
trap 'rm -rf "$folder"' EXIT
"$here/shapes.py" "$folder"
for _ in $(seq 40); do cat "$here/../samples/session.dbus"; done > "$folder/session.dbus"
for _ in $(seq 75); do cat "$here/../samples/big-endian.dbus"; done > "$folder/big-endian.dbus"
cc -O2 "$here/plain_check.c" -o "$folder/plain"
libdbus=
if flags=$(pkg-config --cflags --libs dbus-1 2> /dev/null); then
    libdbus=$folder/libdbus
    # shellcheck disable=SC2086
    cc -O2 "$here/libdbus.c" -o "$libdbus" $flags
fi

# The instructions per byte of a command line over a stream.
count() {
    local input=$1 said
    shift
    said=$(valgrind --tool=callgrind --callgrind-out-file=/dev/null "$@" < "$input" 2>&1 > /dev/null)
    awk -v said="$(sed -n 's/.*Collected : //p' <<< "$said")" -v bytes="$(stat -c %s "$input")" 'BEGIN { printf "%8.1f", said / bytes }'
}

count_each() {
    printf '%-14s' "$(basename "${1%.*}")"
    count "$1" "$program" check
    count "$1" "$program" filter "type='signal'"
    count "$1" "$program" swap --to l
    count "$1" "$program" swap --to B
    count "$1" "$program" show
    count "$1" "$program" json
    count "$1" "$program" list
    count "$1" "$program" count
    count "$1" "$folder/plain"
    if [ -n "$libdbus" ]; then count "$1" "$libdbus"; fi
    echo
}

printf '%-14s%8s%8s%8s%8s%8s%8s%8s%8s%8s%8s\n' stream check filter 'swap l' 'swap B' show json list count 'plain C' libdbus
for stream in session big-endian dictionaries objects texts structs bytes doubles; do
    count_each "$folder/$stream.dbus"
done
for stream in "$folder"/*.worst; do
    count_each "$stream"
done
