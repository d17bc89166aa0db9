#!/bin/sh
# Builds the original twice beside the port and measures all three; make bench has made the port's library before. What is missing is said in one line.
set -eu
here=$(cd "$(dirname "$0")" && pwd)
"$here/../../tests/differential/fetch.sh" || { [ $? = 3 ] || exit 1; echo "bench: nothing was measured beside the Rust"; exit 0; }
cd "$here"
cargo build --release --quiet
exec ../../target/beside/release/beside
