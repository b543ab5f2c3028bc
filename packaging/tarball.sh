#!/usr/bin/env bash
# packaging/tarball.sh VERSION: what was built, packed in out/ with a checksum, for those who have no kit.
source "$(dirname "$0")/stage.sh" "$@"
name=dbus-wire-$version-x86_64-linux
rm -rf out/stage
make --no-print-directory install DESTDIR="$PWD/out/stage" PREFIX="/$name"
# The folder that it is unpacked in is not known: pkg-config finds it from its own file.
sed -i "s|=/$name|=\${pcfiledir}/../..|" "out/stage/$name/lib/pkgconfig/dbus-wire.pc"
packed out/stage "$name" "out/$name.tar.gz"
(cd out && sha256sum "$name.tar.gz" > "$name.tar.gz.sha256")
rm -rf out/stage
echo "out/$name.tar.gz"
