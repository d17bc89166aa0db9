#!/bin/sh
# Puts into target/differential what the differential run is built from and what the repository does not hold:
#   oracle/   the Rust original, copied byte for byte from GPT_SRC (default ../shared/docs/src, seen from the repository's root), and our logging.rs beside it
#   vendor/   the crates uuid, bitflags, crc32fast and what these need, from Debian's packages
# Exit status 3: something cannot be had; what it is stands on standard error.
set -eu
here=$(cd "$(dirname "$0")" && pwd)
cd "$here/../.."
src=${GPT_SRC:-../shared/docs/src}
to=target/differential
packages="librust-uuid-dev librust-bitflags-dev librust-crc32fast-dev librust-getrandom-dev librust-libc-dev librust-cfg-if-dev"
quick="-o Acquire::Retries=0 -o Acquire::http::Timeout=20"
files="lib.rs disk.rs macros.rs mbr.rs partition.rs partition_types.rs header/mod.rs header/builder.rs"

missing() { echo "differential: $1" >&2; exit 3; }

command -v cargo >/dev/null 2>&1 || missing "cargo is missing"
mkdir -p "$to/oracle/header"
for f in $files; do
    [ -f "$src/src/$f" ] || missing "the Rust original is missing: no $src/src/$f (set GPT_SRC)"
    cmp -s "$src/src/$f" "$to/oracle/$f" || cp "$src/src/$f" "$to/oracle/$f"
    cmp "$src/src/$f" "$to/oracle/$f"
done
echo 'disable_all_formatting = true' >"$to/oracle/rustfmt.toml"
cmp -s "$here/standins/logging.rs" "$to/oracle/logging.rs" || cp "$here/standins/logging.rs" "$to/oracle/logging.rs"

if [ ! -f "$to/vendor/.complete" ]; then
    command -v dpkg >/dev/null 2>&1 || missing "dpkg is missing, so Debian's Rust packages cannot be unpacked"
    rm -rf "$to/vendor" "$to/deb"
    mkdir -p "$to/vendor" "$to/deb"
    (cd "$to/deb" && apt-get download $packages || { apt-get update $quick && apt-get download $quick $packages; }) >"$to/deb/log" 2>&1 \
        || missing "Debian's Rust packages cannot be had ($packages): see $to/deb/log"
    for d in "$to"/deb/*.deb; do
        dpkg -x "$d" "$to/deb/root"
    done
    # rt ci refuses a symbolic link anywhere in the repository.
    cp -rL "$to"/deb/root/usr/share/cargo/registry/* "$to/vendor/"
    rm -rf "$to/deb"
    touch "$to/vendor/.complete"
fi
