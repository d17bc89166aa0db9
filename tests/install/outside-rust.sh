#!/bin/sh
# The Rust crate outside the repository: a copy of hosts/rust in an empty folder, with nothing but libcard.a, passes its tests. Those that compare with files
# of the repository say that they are skipped, and no others do. The last line counts the tests.
cd "$(dirname "$0")/../.." || exit 1
root=$(mktemp -d) || exit 1
trap 'rm -rf "$root"' EXIT
library=$PWD/target/lib/libcard.a

fail() {
    cat "$root/log"
    echo "rust-outside: $*"
    exit 1
}

mkdir -p "$root/one/two/lib"
cp -R hosts/rust "$root/one/two/card"
cp "$library" "$root/one/two/lib/libcard.a"
cd "$root/one/two/card" || exit 1
CARD_LIB_DIR=$root/one/two/lib CARGO_TARGET_DIR=$root/target cargo test --offline >"$root/log" 2>&1 || fail "the tests fail outside the repository"
cp "$root/log" "$root/tests"

skipped=$(sed -n 's/^.*skipped: a comparison with \([^,]*\), .*/\1/p' "$root/log" | LC_ALL=C sort | tr '\n' ' ')
want='crates/lister/stdin include/card.h include/card.h include/card.h '
[ "$skipped" = "$want" ] || fail "skipped: $skipped, where $want was to be skipped"

# With another machine's name in its condition the crate must not compile here.
sed 's/target_arch = "x86_64"/target_arch = "aarch64"/' src/lib.rs >src/elsewhere.rs
CARGO_MANIFEST_DIR=. rustc --edition 2021 --crate-type lib --emit=metadata -o "$root/elsewhere" src/elsewhere.rs 2>"$root/log" && fail "the crate compiles for another machine"
grep -q '^error: libcard is for x86-64' "$root/log" || fail "the crate does not say that it is for x86-64"
awk '/^test result: ok/ { n += $4 } END { print "rust-outside: " n + 0 " tests ok outside the repository, 4 comparisons with its files skipped"; exit n == 0 }' "$root/tests"
