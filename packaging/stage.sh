# Sourced: what packaging/deb.sh, packaging/tarball.sh and packaging/release.sh share.
# shellcheck shell=bash
set -euo pipefail
cd "$(dirname "$0")/.."
# Those use it.
# shellcheck disable=SC2034
version=$1
# One date for all files, so that the same files make the same package.
export SOURCE_DATE_EPOCH=${SOURCE_DATE_EPOCH:-$(git log -1 --format=%ct)} TZ=UTC LC_ALL=C.UTF-8
umask 022

# need TOOL PACKAGE: ends if the tool of Debian's package is not there.
need() {
    command -v "$1" > /dev/null || { echo "there is no $1: apt-get install $2" >&2; exit 1; }
}

# dated FOLDER: gives all files in it that date.
dated() {
    find "$1" -exec touch -h -d "@$SOURCE_DATE_EPOCH" {} +
}

# packed FOLDER NAME FILE: packs NAME in the folder, the same bytes for the same files.
packed() {
    dated "$1/$2"
    tar --sort=name --owner=0 --group=0 --numeric-owner -C "$1" -cf - "$2" | gzip -9n > "$3"
}
