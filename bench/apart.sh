#!/usr/bin/env bash
# bench/apart.sh ARCHIVE: instructions per byte of the calls of the library for C that take messages apart or write them as JSON, as valgrind counts them, over
# a sample capture and shapes of bench/shapes.py; and for how many of dbus_wire_check each stands.
set -euo pipefail
archive=$1 here=$(cd "$(dirname "$0")" && pwd)
folder=$(mktemp -d)
trap 'rm -rf "$folder"' EXIT
"$here/shapes.py" "$folder"
cp "$here/../samples/session.dbus" "$folder/"
"${CC:-cc}" -std=c99 -O2 -I"$here/../include" -o "$folder/apart" "$here/apart.c" "$archive"

# The instructions of a call over a stream.
count() {
    valgrind --tool=callgrind --callgrind-out-file=/dev/null --toggle-collect=measured "$folder/apart" "$1" < "$2" 2>&1 |
        sed -n 's/.*Collected : //p'
}

calls=(check parts_of flatten read json)
printf '%-14s' stream
printf '%16s' "${calls[@]}"
echo
for stream in session dictionaries texts structs bytes doubles; do
    printf '%-14s' "$stream"
    bytes=$(stat -c %s "$folder/$stream.dbus") check=
    for call in "${calls[@]}"; do
        told=$(count "$call" "$folder/$stream.dbus")
        awk -v told="$told" -v bytes="$bytes" -v check="${check:=$told}" 'BEGIN { printf "%9.1f (%4.2f)", told / bytes, told / check }'
    done
    echo
done
