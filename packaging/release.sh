#!/usr/bin/env bash
# packaging/release.sh VERSION: all that a release has, in out/release, of the commit that is checked out and of what was built of it: the
# sources, what was built for those who have no kit, packages for Debian, a wheel, a crate, the cases, the documents as HTML, and the checksums
# of all. The same commit and the same built files give the same bytes.
source "$(dirname "$0")/stage.sh" "$@"
need pandoc pandoc
need cargo cargo
if [ -n "$(git status --porcelain)" ]; then
    echo "a release is of a commit, and these files are not committed:" >&2
    git status --short >&2
    exit 1
fi
if grep ' back to ' bench/weight.txt >&2; then
    echo "before a release these numbers have to come back to what bench/weight.txt says" >&2
    exit 1
fi
room=out/release
rm -rf "$room"
mkdir -p "$room"
git archive --prefix="dbus-wire-$version/" HEAD | gzip -9n > "$room/dbus-wire-$version.tar.gz"
packaging/tarball.sh "$version"
packaging/deb.sh "$version"
make --no-print-directory wheel crate
mv out/dbus-wire-"$version"-x86_64-linux.tar.gz out/*.deb out/*.whl out/*.crate "$room"
rm -f out/*.sha256
cases/export.py "$room"
pages=out/stage/dbus-wire-docs-$version
mkdir -p "$pages"
how=(--from=gfm --to=html5 --standalone --include-after-body=packaging/footer.html)
for page in *.md docs/*.md; do
    # Pages name each other by their files.
    sed -E 's#`?docs/([A-Z-]+)\.md`?|`([A-Z]+)\.md`#[\1\2](\1\2.html)#g; s#`out/(api\.html)`#[\1](\1)#' "$page" |
        pandoc "${how[@]}" --metadata=pagetitle="$(head -1 "$page" | cut -c3-)" --output="$pages/$(basename "$page" .md).html"
done
make --no-print-directory api
mv out/api.html "$pages"
packed out/stage "dbus-wire-docs-$version" "$room/dbus-wire-docs-$version.tar.gz"
rm -rf out/stage
(cd "$room" && sha256sum -- * > ../SHA256SUMS && mv ../SHA256SUMS .)
cat "$room/SHA256SUMS"
