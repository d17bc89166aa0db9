#!/bin/sh
# Builds and runs what make differential (run) and make differential-slips (slips) ask for.
# What is missing is said in one line; then the exit status is 1, and 0 if IN_TEST=1, as make test sets it.
set -eu
here=$(cd "$(dirname "$0")" && pwd)
root=$(cd "$here/../.." && pwd)

skipped() {
    echo "differential: skipped, nothing was compared"
    [ "${IN_TEST:-0}" = 1 ] && exit 0
    exit 1
}

"$here/fetch.sh" || { [ $? = 3 ] && skipped; exit 1; }
cd "$root"
if command -v rt >/dev/null 2>&1; then
    said=$(make -s lib 2>&1 </dev/null) || { echo "$said"; exit 1; }
elif [ ! -f target/lib/libcard.a ]; then
    echo "differential: rt is missing, so there is no target/lib/libcard.a" >&2
    skipped
fi
cd "$here"
cargo build --release --quiet
made=$root/target/differential/build/release
case $1 in
    run)
        cargo test --release --quiet --workspace >"$root/target/differential/test.log" 2>&1 \
            || { cat "$root/target/differential/test.log"; exit 1; }
        "$made/tape" --check
        "$made/differential"
        ;;
    slips) "$made/slips" ;;
esac
