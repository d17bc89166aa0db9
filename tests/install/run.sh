#!/bin/sh
# Installs into an empty folder and uses only what is there: use.c by the static and by the shared library, and the lister on its stored card. Then it uninstalls, and looks at what is left.
# Both folders have a space in their names, and the umask lets nobody else read: what is installed must be readable all the same.
# The compiler's flags come from the installed pkg-config file where pkg-config is there. The last line says what was tried.
cd "$(dirname "$0")/../.." || exit 1
umask 077
root=$(mktemp -d) || exit 1
trap 'rm -rf "$root"' EXIT
stage="$root/the stage"
prefix="/the card"
there=$stage$prefix
want='used 1, then refused 22 by slot 1'
files="include/card.h lib/libcard.a lib/libcard.so lib/libcard.so.0 lib/pkgconfig/card.pc bin/card-lister share/doc/card/LICENSE share/doc/card/NOTICE"
for name in README.md card_file.h lay.c update.c list.c; do files="$files share/doc/card/examples/$name"; done
command="the card command, "
if command -v cargo >/dev/null 2>&1; then
    files="$files bin/card share/man/man1/card.1 share/bash-completion/completions/card"
else
    command="no card command, for want of cargo, "
fi

fail() {
    echo "install: $*"
    exit 1
}

said=$(make -s install PREFIX="$prefix" DESTDIR="$stage" 2>&1) || fail "make install failed: $said"
case $said in *ldconfig*) fail "make install speaks of ldconfig, though DESTDIR is set: $said" ;; esac

for file in $files; do
    [ -f "$there/$file" ] || fail "$prefix/$file is missing"
done
found=$(cd "$there" && find . ! -type d | sed 's,^\./,,' | sort | tr '\n' ' ')
[ "$found" = "$(printf '%s\n' $files | sort | tr '\n' ' ')" ] || fail "other files than those were installed: $found"
closed=$(find "$stage" -type d ! -perm -o=rx -o -type f ! -perm -o=r)
[ -z "$closed" ] || fail "with umask 077 not everyone can read: $closed"
cmp NOTICE "$there/share/doc/card/NOTICE" && cmp LICENSE "$there/share/doc/card/LICENSE" || fail "a licence is another text"

# A prefix of the system is left out of the flags unless it is asked for; below another root it has to be named.
flags() {
    PKG_CONFIG_SYSROOT_DIR="$stage" PKG_CONFIG_LIBDIR="$there/lib/pkgconfig" PKG_CONFIG_ALLOW_SYSTEM_CFLAGS=1 PKG_CONFIG_ALLOW_SYSTEM_LIBS=1 pkg-config "$@" card
}

if command -v pkg-config >/dev/null 2>&1; then
    how="pkg-config's flags"
    cflags=$(flags --cflags) && libs=$(flags --libs) || fail "pkg-config does not read card.pc"
    [ "$(flags --modversion)" = "$(sed -n 's/^VERSION = //p' Makefile)" ] || fail "card.pc has another version"
else
    how="-I and -L, for want of pkg-config"
    cflags="-I'$there/include'"
    libs="-L'$there/lib' -lcard"
fi

# built NAME FLAGS: compiles use.c outside the repository, runs it and compares what it prints. The flags are words for a shell to read, as pkg-config prints them.
built() {
    (cd "$root" && eval "${CC:-cc} -std=c11 -Wall -Wextra -Werror ${CFLAGS--O2} $cflags -o $1 use.c $2 ${LDFLAGS-}") || fail "use.c does not compile by the $1 library"
    said=$(LD_LIBRARY_PATH="$there/lib" "$root/$1") || fail "use.c by the $1 library has exit status $?: $said"
    [ "$said" = "$want" ] || fail "use.c by the $1 library printed: $said"
}

cp tests/install/use.c "$root/use.c"
built shared "$libs"
built static "-Wl,-Bstatic $libs -Wl,-Bdynamic"
grep -q 'libcard\.so\.0' "$root/shared" || fail "the shared program does not ask for libcard.so.0"
grep -q 'libcard\.so' "$root/static" && fail "the static program asks for the shared library"
if command -v readelf >/dev/null 2>&1; then
    readelf -d "$there/lib/libcard.so.0" | grep -q NOW || fail "libcard.so.0 does not bind its symbols when it is loaded (-z now)"
    readelf -lW "$there/lib/libcard.so.0" | grep -q GNU_RELRO || fail "libcard.so.0 has no part that becomes read-only (-z relro)"
fi
cmp -s target/lib/libcard.so target/lib/libcard.so.0 || fail "target/lib/libcard.so.0 does not stand beside libcard.so"

"$there/bin/card-lister" <crates/lister/stdin | cmp - crates/lister/stdout || fail "the installed lister prints another text"
if [ -e "$there/bin/card" ]; then
    "$there/bin/card" lay "$root/a card" --size 1M >/dev/null && "$there/bin/card" check "$root/a card" >/dev/null || fail "the installed card command does not lay a card"
    ldd "$there/bin/card" 2>/dev/null | grep -q libcard && fail "the card command asks for the shared library"
    [ "$("$there/bin/card" --version)" = "card $(sed -n 's/^VERSION = //p' Makefile)" ] || fail "the card command has another version"
fi

# The compiler, its flags and the linker's are those that make was given, in the rule for the shared library as in the others.
said=$(make -n -W target/lib/libcard.a target/lib/libcard.so boundary CC='some cc' CFLAGS=-some-c LDFLAGS=-some-ld | grep -c '^some cc .*-some-c .*-some-ld')
[ "$said" = 3 ] || fail "CC, CFLAGS and LDFLAGS are not in all three commands that call the compiler"

# A file of others stays, and the folder around it; what was installed goes, and nothing else.
echo theirs >"$there/share/doc/card/theirs"
echo theirs >"$there/lib/libother.a"
make -s uninstall PREFIX="$prefix" DESTDIR="$stage" >"$root/said" || fail "make uninstall failed"
left=$(cd "$there" && find . ! -type d | sort | tr '\n' ' ')
[ "$left" = "./lib/libother.a ./share/doc/card/theirs " ] || fail "after make uninstall these files are left: $left"
rm "$there/share/doc/card/theirs"
make -s install PREFIX="$prefix" DESTDIR="$stage" >"$root/said" 2>&1 || fail "make install failed the second time"
make -s uninstall PREFIX="$prefix" DESTDIR="$stage" >"$root/said" || fail "make uninstall failed the second time"
[ ! -e "$there/share/doc/card" ] || fail "make uninstall left its own folder, share/doc/card"

# Without DESTDIR a word about ldconfig is the last line.
make -s install DESTDIR= PREFIX="$root/own place" 2>&1 | tail -n 1 | grep -q ldconfig || fail "make install says nothing of ldconfig"
echo "install: ${command}header, both libraries, lister and licences work from an empty folder, and are removed again ($how)"
