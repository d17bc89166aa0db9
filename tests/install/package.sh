#!/bin/sh
# Unpacks the package for Debian and the tarball into empty folders, and uses what is there: the command, the Python package over the shared library, and a C program by pkg-config where it is there.
# make package-test has made both before. The last line says what was tried.
cd "$(dirname "$0")/../.." || exit 1
version=$(sed -n 's/^VERSION = //p' Makefile)
there=$(mktemp -d) || exit 1
trap 'rm -rf "$there"' EXIT

fail() {
    echo "package: $*"
    exit 1
}

# used PREFIX: what stands below a prefix works from there.
used() {
    "$1/bin/card" lay "$there/a.img" --size 1M >/dev/null || fail "card of $1 does not lay"
    "$1/bin/card" put "$there/a.img" next --size 64K --name "north ridge" >/dev/null || fail "card of $1 does not put"
    [ "$("$1/bin/card" --version)" = "card $version" ] || fail "card of $1 has another version"
    said=$(cd "$there" && CARD_LIBRARY="$1/lib/libcard.so.0" PYTHONPATH="$2" python3 -c 'import card; print([e.record.name for e in card.listing(open("a.img", "rb").read(), 512)])') || fail "the Python package of $1 fails"
    [ "$said" = "['north ridge']" ] || fail "the Python package of $1 said: $said"
    for file in include/card.h lib/libcard.a lib/libcard.so lib/pkgconfig/card.pc bin/card-lister share/doc/card/LICENSE share/doc/card/NOTICE share/doc/card/CHANGELOG.md lib/python3/dist-packages/card/py.typed share/doc/card/examples/list.c share/bash-completion/completions/card; do
        [ -f "$1/$file" ] || fail "$1 has no $file"
    done
    rm "$there/a.img"
}

deb=target/package/card-table_${version}_amd64.deb
dpkg-deb -x "$deb" "$there/root" || fail "the package cannot be unpacked"
[ "$(dpkg-deb -f "$deb" Version)" = "$version" ] || fail "the package has another version"
gzip -dc "$there/root/usr/share/man/man1/card.1.gz" | cmp - hosts/card/card.1 || fail "the manual is another one"
used "$there/root/usr" "$there/root/usr/lib/python3/dist-packages"

tarball=card-table-$version-x86_64
(cd target/package && sha256sum -c --quiet "$tarball.tar.gz.sha256") || fail "the tarball's sum"
tar -C "$there" -xzf "target/package/$tarball.tar.gz" || fail "the tarball cannot be unpacked"
(cd "$there/$tarball" && sha256sum -c --quiet SHA256SUMS) || fail "a sum in the tarball"
used "$there/$tarball" "$there/$tarball/lib/python3/dist-packages"
how="the command and the Python package"
if command -v pkg-config >/dev/null 2>&1; then
    flags=$(PKG_CONFIG_LIBDIR="$there/$tarball/lib/pkgconfig" pkg-config --cflags --libs card) || fail "pkg-config does not read the tarball's card.pc"
    (cd "$there" && eval "${CC:-cc} -o use '$OLDPWD/tests/install/use.c' $flags") && LD_LIBRARY_PATH="$there/$tarball/lib" "$there/use" >/dev/null || fail "use.c by the tarball's library"
    how="$how, and a C program"
fi
echo "package: a package for Debian and a tarball, unpacked into empty folders: $how work from there"
