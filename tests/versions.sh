#!/bin/sh
# The version stands in the Makefile; every other place that names it must name the same one.
cd "$(dirname "$0")/.." || exit 1
version=$(sed -n 's/^VERSION = //p' Makefile)
status=0

# same FILE FOUND: what a file says.
same() {
    [ "$2" = "$version" ] || { echo "versions: $1 says ${2:-nothing}, and the Makefile $version"; status=1; }
}

same include/card.h "$(sed -n 's/^#define CARD_VERSION "\(.*\)"$/\1/p' include/card.h)"
same hosts/rust/Cargo.toml "$(sed -n 's/^version = "\(.*\)"$/\1/p' hosts/rust/Cargo.toml)"
same hosts/card/Cargo.toml "$(sed -n 's/^version = "\(.*\)"$/\1/p' hosts/card/Cargo.toml)"
same hosts/card/Cargo.lock "$(sed -n 's/^version = "\(.*\)"$/\1/p' hosts/card/Cargo.lock | sort -u)"
same hosts/rust/Cargo.lock "$(sed -n 's/^version = "\(.*\)"$/\1/p' hosts/rust/Cargo.lock | sort -u)"
same hosts/card/card.1 "$(sed -n 's/^\.TH CARD 1 "" "card \(.*\)" .*$/\1/p' hosts/card/card.1)"
same hosts/python/card/__init__.py "$(sed -n 's/^__version__ = "\(.*\)"$/\1/p' hosts/python/card/__init__.py)"
same crates/text_c/src/lib.rt "$(sed -n 's/^        \(major\|minor\|patch\): \([0-9]*\),$/\2/p' crates/text_c/src/lib.rt | paste -s -d . -)"
same CHANGELOG.md "$(sed -n 's/^Version \([0-9.]*\) is .*$/\1/p' CHANGELOG.md)"
[ "$status" -ne 0 ] || echo "versions: $version in all nine places"
exit $status
