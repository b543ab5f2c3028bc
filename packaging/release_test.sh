#!/usr/bin/env bash
# packaging/release_test.sh VERSION: whether a release of the same commit and the same built files, which another clone makes later, has the same
# bytes as that in out/release.
source "$(dirname "$0")/stage.sh" "$@"
again=$(mktemp -d)
trap 'rm -rf "$again"' EXIT
git clone --quiet . "$again/dbus-wire"
for file in crates/dbus_wire/out/dbus_wire out/libdbus_wire.a out/libdbus_wire.so.0 out/NOTICES; do
    mkdir -p "$again/dbus-wire/$(dirname "$file")"
    cp "$file" "$again/dbus-wire/$file"
done
env -u SOURCE_DATE_EPOCH make --no-print-directory -C "$again/dbus-wire" release > "$again/said" 2>&1 || { cat "$again/said"; exit 1; }
diff out/release/SHA256SUMS "$again/dbus-wire/out/release/SHA256SUMS"
echo "another clone makes the same $(wc -l < out/release/SHA256SUMS) files"
