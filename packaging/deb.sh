#!/usr/bin/env bash
# packaging/deb.sh VERSION: the packages that packaging/debian/control describes, in out/, of what was built. Debian's debhelper and
# dh-python make them, from a copy of what git knows, as a distribution does.
source "$(dirname "$0")/stage.sh" "$@"
need dpkg-buildpackage dpkg-dev
need dh debhelper
need dh_python3 dh-python
named=$(dpkg-parsechangelog -l packaging/debian/changelog -S Version)
[ "${named%-*}" = "$version" ] || { echo "packaging/debian/changelog is of the version $named, and not of $version" >&2; exit 1; }
rm -rf out/deb out/*.deb
tree=out/deb/dbus-wire-$version
mkdir -p "$tree"
git ls-files -z | tar --null --files-from=- -cf - crates/dbus_wire/out/dbus_wire out/libdbus_wire.a out/libdbus_wire.so.0 out/NOTICES | tar -xf - -C "$tree"
mv "$tree/packaging/debian" "$tree/debian"
dated "$tree"
(cd "$tree" && dpkg-buildpackage --build=binary --unsigned-changes)
mv out/deb/*.deb out/
rm -rf out/deb
