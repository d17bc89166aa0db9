#!/bin/sh
# The tests that need more than Rattle: each runs where this machine has what it needs, and is named as skipped where it has not or where its last line says `: skipped, `. A test that fails is shown with its output, and no further one is begun.
#
# tests/outside.sh runs all. First come the steps that make what the others use; then two lines of steps run side by side. Two runs of rt in one repository write the same files, so the steps that call rt stand in one line.
cd "$(dirname "$0")/.." || exit 1
PATH=$PATH:/usr/sbin:/sbin
ran=0
skipped=0
line=${1:-all}
logs=target/outside

# Which line a step stands in.
line_of() {
    case $1 in
        programs | lib | card) echo first ;;
        edits | lister-test | demo | sums | install-test | package-test | documents) echo rt ;;
        *) echo other ;;
    esac
}

# Whether this machine has each of these commands. The word x86-64 stands for the processor that programs and the library are compiled for.
has() {
    for word in "$@"; do
        missing=$word
        case $word in
            x86-64) [ "$(uname -m)" = x86_64 ] || { missing="x86-64 processor"; return 1; } ;;
            *) command -v "$word" >/dev/null 2>&1 || return 1 ;;
        esac
    done
}

# run TARGET WHAT NEEDS..: make TARGET, if it stands in this line and the commands NEEDS are there.
run() {
    target=$1
    what=$2
    shift 2
    [ "$(line_of "$target")" = "$line" ] || return
    [ ! -e "$logs/failed" ] || exit 1
    if ! has "$@"; then
        echo "outside: $what: SKIPPED, this machine has no $missing"
        skipped=$((skipped + 1))
        return
    fi
    log=$logs/$target.log
    began=$(date +%s)
    make -s "$target" </dev/null >"$log" 2>&1
    status=$?
    took="$(($(date +%s) - began)) s"
    if [ "$status" -ne 0 ]; then
        echo "outside: $what: FAILED (make $target; $took)" >>"$log"
        echo "$log" >>"$logs/failed"
        exit 1
    fi
    last=$(tail -n 1 "$log")
    case $last in
        *": skipped, "*)
            echo "outside: $what: SKIPPED, $(tail -n 2 "$log" | head -n 1) ($took)"
            skipped=$((skipped + 1))
            ;;
        *)
            echo "outside: $what: $last ($took)"
            ran=$((ran + 1))
            ;;
    esac
}

if [ "$line" = all ]; then
    rm -rf "$logs"
    mkdir -p "$logs"
    if tests/outside.sh first; then
        tests/outside.sh rt &
        rt=$!
        tests/outside.sh other &
        other=$!
        wait "$rt" || : >>"$logs/failed"
        wait "$other" || : >>"$logs/failed"
    else
        : >>"$logs/failed"
    fi
    if [ -e "$logs/failed" ]; then
        while IFS= read -r log; do cat "$log"; done <"$logs/failed"
        echo "outside: FAILED"
        exit 1
    fi
    cat "$logs"/*.count | awk '{ ran += $1; skipped += $2 } END { print "outside: " ran " ran, " skipped " skipped" }'
    exit
fi

run edits "each changed function of an edit" python3
run programs "the programs that are run below"
run versions "one version in all places"
run tour "the tour's lines and the picture of the crates" python3
run example "the stored cards are the independent maker's" python3 cmp
run lister-test "the lister and free_ground" x86-64 python3
run demo "the sample card, laid and listed" x86-64
run sums "the check sums of published vectors" x86-64
run lib "the library for C" x86-64 cc
run card "the card command, built" x86-64 cargo cc
run boundary "every call across the boundary to C" x86-64 cc
run guard "every export between pages that cannot be touched" x86-64 cc
run examples "the pages of examples/c, built and run" x86-64 cc
run boundary-valgrind "every call across the boundary, under valgrind" x86-64 cc valgrind
run python-types "the Python package's types" python3
run python "the Python package's examples and tests" x86-64 python3 cc
run wheel-test "the wheel, installed and used" x86-64 python3 cc
run race "calls beside a second writer" x86-64 python3 cc
run model "every call beside a model from the documents" x86-64 python3 cc
run corpus "images that every reader must survive" x86-64 python3 cc
run writers "two writers on one card" x86-64 python3 cc
run cuts-quick "cards cut between stages" x86-64 python3 cc
run rust "the Rust crate's tests" x86-64 cargo cc
run card-test "the card command" x86-64 cargo cc python3
run install-test "installed and used from there" x86-64 cc install
run package-test "packages, unpacked and used" x86-64 cargo cc python3 dpkg-deb
run documents "the documents' commands" x86-64 python3 cc cargo
run interop "cards beside sgdisk, sfdisk, fdisk and parted" x86-64 python3 cc sgdisk sfdisk fdisk parted
run firmware-quick "cut cards before the readers of other makers" x86-64 python3 cc sfdisk parted sgdisk
run scripts-test "the scripts of the gate, with a stand-in for rt" python3
IN_TEST=1
export IN_TEST
run differential "the port beside the Rust original" x86-64 cargo cc
echo "$ran $skipped" >"$logs/$line.count"
