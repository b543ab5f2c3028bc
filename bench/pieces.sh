#!/usr/bin/env bash
# bench/pieces.sh PROGRAM: MB per second of a checker whose bytes come in pieces of 1, 7, 64 and 4,096 bytes and all at once, by PROGRAM,
# a build of bench/pieces.c: over the sample captures and the streams of bench/shapes.py.
set -euo pipefail
program=$1 here=$(cd "$(dirname "$0")" && pwd)
folder=$(mktemp -d)
trap 'rm -rf "$folder"' EXIT
"$here/shapes.py" "$folder"
for stream in session big-endian; do
    for _ in $(seq 40); do cat "$here/../samples/$stream.dbus"; done > "$folder/$stream.dbus"
done
printf '%-14s%8s%8s%8s%8s%8s\n' stream 1 7 64 4096 whole
for stream in session big-endian dictionaries objects texts structs bytes doubles; do
    "$program" "$stream" < "$folder/$stream.dbus"
done
for stream in "$folder"/*.long "$folder"/*.worst; do
    "$program" "$(basename "${stream%.*}")" < "$stream"
done
