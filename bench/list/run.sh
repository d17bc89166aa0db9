#!/bin/sh
# Builds the Rust original's lister where the original is there, and measures all programs that list a card; make bench-list has made the command before.
set -eu
here=$(cd "$(dirname "$0")" && pwd)
cd "$here/../.."
if tests/differential/fetch.sh; then
    (cd bench/beside && cargo build --release --quiet --bin list)
else
    echo "list: the Rust original is not measured"
fi
exec python3 bench/list/run.py
