#!/bin/sh
# languages.sh LIBRARIES: microseconds of some messages that are read and built by the crate for Rust (languages.rs) and
# by the module for Python (languages.py), beside the C library in the folder LIBRARIES, and beside zvariant, jeepney
# and dbus-fast, as far as Debian's packages of these are there (librust-zvariant-dev, python3-jeepney, python3-dbus-
# fast).
# Compare figures of one run alone.
set -eu
here=$(cd "$(dirname "$0")" && pwd) libraries=$(cd "$1" && pwd)
room=$(mktemp -d)
trap 'rm -rf "$room"' EXIT
mkdir "$room/src" "$room/.cargo"
cp "$here/languages.rs" "$room/src/main.rs"
cat > "$room/Cargo.toml" << END
[package]
name = "languages"
version = "0.0.0"
edition = "2021"
[dependencies]
dbus-wire = { path = "$here/../rust" }
END
features=
registry=/usr/share/cargo/registry
if ls -d $registry/zvariant-* > /dev/null 2>&1; then
	printf 'zvariant = { version = "*", optional = true }\nbyteorder = "*"\n' >> "$room/Cargo.toml"
	printf '[source]\ncrates-io.replace-with = "debian"\ndebian.directory = "%s"\n' $registry > "$room/.cargo/config.toml"
	features=--features=zvariant
fi
(cd "$room" && DBUS_WIRE_LIB_DIR=$libraries LD_LIBRARY_PATH=$libraries cargo run --quiet --release --offline $features)
export PYTHONPATH="$here/../python:/usr/lib/python3/dist-packages" DBUS_WIRE_LIBRARY="$libraries/libdbus_wire.so.0"
"$here/languages.py"
echo "by ctypes, without the extension module:"
DBUS_WIRE_NO_EXTENSION=1 "$here/languages.py"
