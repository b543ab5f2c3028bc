#!/usr/bin/env bash
# packaging/root_test.sh VERSION: installs the release that is in out/release in a fresh Debian, and uses it there alone: the packages, then the
# tarball, the wheel and, built by the cargo of this machine, the examples of the crate. It needs root, debootstrap and a network.
source "$(dirname "$0")/stage.sh" "$@"
need debootstrap debootstrap
need cargo cargo
fresh=$(mktemp -d)
trap 'rm -rf "$fresh"' EXIT
chmod 755 "$fresh"
debootstrap --variant=minbase --include=bash-completion,dpkg-dev,fish,gcc,libc6-dev,man-db,pkg-config,python3-venv,zsh bookworm "$fresh" > /dev/null
mkdir "$fresh/release"
cp out/release/* "$fresh/release"
said=$(crates/dbus_wire/out/dbus_wire check < samples/session.dbus)

# inside WORD..: runs the command in the fresh system, with the sample as its input. What is mounted there is gone when it ends.
inside() {
    local mounted='mount -t proc proc "$0/proc" && mount -t devpts -o newinstance,ptmxmode=666 devpts "$0/dev/pts" && exec chroot "$0" "$@"'
    env -i PATH=/usr/sbin:/usr/bin:/sbin:/bin LC_ALL=C.UTF-8 unshare --mount sh -c "$mounted" "$fresh" "$@" < samples/session.dbus
}

# must WORD..: ends if the command does not say of the sample what the program says.
must() {
    local written
    written=$(inside "$@")
    [ "$written" = "$said" ] || { printf '%s writes\n%s\nand not\n%s\n' "$*" "$written" "$said" >&2; exit 1; }
}

inside tar -xf "/release/dbus-wire-$version.tar.gz"
inside sh -c 'dpkg --install /release/*.deb'
inside "/dbus-wire-$version/packaging/installed_test.sh"

mkdir "$fresh/crate"
tar -xf "out/release/dbus-wire-$version.crate" -C "$fresh/crate" --strip-components=1
libraries=$fresh/usr/lib/$(dpkg-architecture -qDEB_HOST_MULTIARCH)
(cd "$fresh/crate" && env -u DBUS_WIRE_LIB_DIR PKG_CONFIG_SYSROOT_DIR="$fresh" PKG_CONFIG_LIBDIR="$libraries/pkgconfig" cargo build --quiet --offline --examples)
must /crate/target/debug/examples/check
inside sh -c 'dpkg --purge dbus-wire libdbus-wire-dev libdbus-wire0 python3-dbus-wire'

inside tar -xf "/release/dbus-wire-$version-x86_64-linux.tar.gz"
unpacked=/dbus-wire-$version-x86_64-linux
must "$unpacked/bin/dbus-wire" check
inside sh -c "gcc -o /check /dbus-wire-$version/examples/c/check.c \$(PKG_CONFIG_PATH=$unpacked/lib/pkgconfig pkg-config --cflags --libs dbus-wire)"
must env LD_LIBRARY_PATH="$unpacked/lib" /check

inside python3 -m venv /venv
inside sh -c '/venv/bin/pip install --quiet --no-index /release/*.whl'
must /venv/bin/python "/dbus-wire-$version/examples/python/check.py"
echo "a fresh system uses the packages, the tarball, the wheel and the crate as it should"
