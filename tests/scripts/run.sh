#!/bin/sh
# Tries the scripts of the repository and the Makefile's own targets on a copy of the repository in an empty folder, with a stand-in for rt that proves nothing and ends at once.
# The last line says how many things were tried; one that fails is named, and the exit status is 1.
cd "$(dirname "$0")/../.." || exit 1
room=$(mktemp -d) || exit 1
trap 'rm -rf "$room"' EXIT
copy="$room/a copy"
tried=0

fail() {
    echo "scripts: $1"
    [ $# -lt 2 ] || printf '%s\n' "$2"
    exit 1
}

# ok WHAT COMMAND..: the command must succeed.
ok() {
    what=$1
    shift
    tried=$((tried + 1))
    "$@" || fail "$what: NOT SO; what was printed:" "$said"
}

not() { ! "$@"; }

# said_by COMMAND..: what it printed to either output is in said, and how it ended in status. Its standard input is empty, and no make around it shows through.
said_by() {
    (unset MAKEFLAGS MFLAGS MAKELEVEL; "$@" >"$room/said" 2>&1 </dev/null)
    status=$?
    said=$(cat "$room/said")
}

has() { printf '%s\n' "$said" | grep -q -e "$1"; }
last_is() { [ "$(printf '%s\n' "$said" | tail -n 1)" = "$1" ]; }

mkdir -p "$copy/crates" "$copy/tests"
cp -R Makefile README.md crates.txt .ci scripts "$copy/"
cp -R tests/example "$copy/tests/"
for name in $(scripts/below); do mkdir "$copy/crates/$name"; done
for name in lister free_ground uefi_lister sample cases; do
    (cd "crates/$name" && cp -R src specs proofs stdin stdout "$copy/crates/$name/" 2>/dev/null)
done

# Two folders of commands: in the first there is no rt, no compiler and no Python; the second has the stand-ins.
plain="$room/plain"
stand_in="$room/stand-in"
mkdir "$plain" "$stand_in"
for name in sh make awk sed grep cat cp ln rm rmdir mkdir mktemp dirname date find sleep tail head sort tr id kill printf env; do
    found=$(command -v "$name") && [ -x "$found" ] && ln -s "$found" "$plain/$name"
done
cat >"$stand_in/rt" <<'END'
#!/bin/sh
# What it is to do stands in files beside it: ci (what rt ci prints), ci.status, check.status, check.awaits (the words of the script that it waits for, a minute at most), run.status (how the program ends).
here=$(dirname "$0")
echo "$*" >>"$here/calls"
check() {
    echo "rt: chose --jobs 2 for header"
    awaited=$(cat "$here/check.awaits")
    seconds=0
    until [ -z "$awaited" ] || grep -q -e "$awaited" "$here/../said" || [ "$seconds" -eq 60 ]; do
        sleep 1
        seconds=$((seconds + 1))
    done
    echo "fn header::read: a line that only a failed run shows"
    [ "$(cat "$here/check.status")" -eq 0 ] || { echo "logic=not-proved"; exit 1; }
    echo "logic=proved functions=1"
    mkdir -p out
}
name=$(basename "$PWD")
case $1 in
    version) echo "a kit" ;;
    ci)
        for main in crates/*/src/main.rt; do
            name=${main#crates/}
            name=${name%%/*}
            mkdir -p "crates/$name/out"
            echo "$name by rt ci" >"crates/$name/out/$name"
        done
        for name in $(scripts/below -l); do mkdir -p "crates/$name/out/rlib/$name.rlib/new"; done
        cat "$here/ci"
        exit "$(cat "$here/ci.status")"
        ;;
    check) check ;;
    lib)
        check
        echo "$name by rt" >"out/lib$name.a"
        ;;
    run)
        check >&2
        echo "$name by rt" >"out/$name"
        echo "rt: running out/$name; to give it other input, run that file yourself" >&2
        echo "what the program writes"
        exit "$(cat "$here/run.status")"
        ;;
esac
END
# rt's place in the kit is that of the folder of stand-ins, so the kit's own command is beside it.
mkdir "$room/bin"
cat >"$room/bin/rattle" <<'END'
#!/bin/sh
# rattle build .. -o FILE
here=$(dirname "$0")/../stand-in
echo "rattle $1 $(basename "$PWD")" >>"$here/calls"
[ "$(cat "$here/check.status")" -eq 0 ] || { echo "logic=not-proved"; exit 1; }
echo "logic=proved functions=1"
mkdir -p out
while [ "$1" != -o ]; do shift; done
echo "over rt ci" >"$2"
END
cat >"$stand_in/apt-get" <<'END'
#!/bin/sh
here=$(dirname "$0")
echo "apt-get $*" >>"$here/calls"
exit "$(cat "$here/apt.status")"
END
printf '#!/bin/sh\ncat "$(dirname "$0")/user"\n' >"$stand_in/id"
printf '#!/bin/sh\necho "outside: a test: ran (1 s)"\nexit "$(cat outside.status)"\n' >"$copy/tests/outside.sh"
chmod +x "$stand_in/rt" "$room/bin/rattle" "$stand_in/apt-get" "$stand_in/id" "$copy/tests/outside.sh"

# sets NAME TEXT: what a stand-in is to do.
sets() { printf '%s\n' "$2" >"$stand_in/$1"; }
sets ci.status 0
sets check.status 0
sets run.status 0
sets check.awaits 'header is being proved'
sets apt.status 0
sets user 0
sets ci "rt: units proved
rt: ok; handles allowed: none; must-fail edits: 2 refused; every proof and must-fail edit was done in this run
6 passed, 0 failed"
echo 0 >"$copy/outside.status"

# --- without rt
said_by env PATH="$plain" make -s -C "$copy" demo
ok "without rt make demo fails" [ "$status" -ne 0 ]
ok "and says what rt is" has 'rt is missing. It is the command of the Rattle kit, rattle-kit-'
ok "and where to read on" has "'The toolchain' in README.md"
said_by env PATH="$plain" make -s -C "$copy" test
ok "without rt make test fails" [ "$status" -ne 0 ]
ok "and says what rt is, too" has 'Rattle kit'
said_by env PATH="$plain" make -s -C "$copy"
ok "without rt plain make fails" [ "$status" -ne 0 ]
ok "and says what rt is, behind the help" has 'Rattle kit'
ok "README names the kit's section" grep -q '^## The toolchain$' README.md
PATH=$stand_in:$PATH

# --- help
said_by make -s -C "$copy"
ok "plain make shows the help" has '^make help '
ok "with exit status 0" [ "$status" -eq 0 ]
for name in $(sed -n 's/^\.PHONY: //p' Makefile) $(sed -n 's/^\([a-z][a-z-]*\):.*/\1/p' Makefile); do
    ok "the help has a line with words for $name" has "^make $name  *[A-Z]"
    ok "$name is in .PHONY" grep -q "^\.PHONY:.* $name\( \|\$\)" Makefile
done

# --- a fresh clone
ok "the copy has no target/" [ ! -e "$copy/target" ]
said_by make -s -C "$copy" example
ok "make example works on a fresh clone" [ "$status" -eq 0 ]
rm -rf "$copy/target"

# --- scripts/prove
said_by "$copy/scripts/prove" header
ok "scripts/prove succeeds where rt does" [ "$status" -eq 0 ]
ok "it says at once what is proved, and how many crates" [ "$(printf '%s\n' "$said" | head -n 1)" = "prove: header, with all that is below: 3 crates" ]
ok "it says which crate is being proved" has '^prove: header is being proved$'
ok "it says how long a crate took" has '^prove: header proved, [0-9]* s$'
ok "it counts" has '^prove: 3 crates, 1 of them proved now, in [0-9]* s$'
ok "it shows no line of rt's" not has 'a line that only a failed run shows'
sets check.awaits ''
: >"$stand_in/calls"
said_by "$copy/scripts/prove" header
ok "what has not changed is not proved again" has '^prove: 3 crates, unchanged since they were proved$'
ok "rt is not asked to" not grep -q check "$stand_in/calls"
mkdir "$copy/crates/units/src"
echo "// changed" >"$copy/crates/units/src/lib.rt"
said_by sh -c '"$0" header 2>/dev/null' "$copy/scripts/prove"
ok "its standard output is empty" [ -z "$said" ]
ok "what has changed is proved again" grep -qx check "$stand_in/calls"
sets run.status 3
said_by "$copy/scripts/prove" lister text_c
ok "a program that ends with an error is proved, too" [ "$status" -eq 0 ]
ok "a program is left in target/bin" grep -qx 'lister by rt' "$copy/target/bin/lister"
ok "a library for C is left in target/staticlib" grep -qx 'text_c by rt' "$copy/target/staticlib/libtext_c.a"
sets run.status 0
echo "// changed again" >"$copy/crates/units/src/lib.rt"
sets check.status 1
for name in header lister text_c; do
    said_by "$copy/scripts/prove" "$name"
    ok "scripts/prove fails where rt does, for $name" [ "$status" -ne 0 ]
    ok "and shows what rt said of $name" has 'a line that only a failed run shows'
done
sets check.status 0

# --- scripts/gate
gate() {
    : >"$stand_in/calls"
    said_by "$copy/.ci/run"
}
passes() { printf '%s\n' "$said" | grep -cx '[0-9]* passed, 0 failed'; }
cd "$room" || exit 1
gate
ok "a gate whose parts all pass passes" [ "$status" -eq 0 ]
ok "its last line is rt ci's" last_is "6 passed, 0 failed"
ok "which it prints once" [ "$(passes)" = 1 ]
ok "rt ci is called once, with no more words" [ "$(grep '^ci' "$stand_in/calls")" = ci ]
ok "the programs in target/bin are rt ci's" grep -qx 'lister by rt ci' "$copy/target/bin/lister"
ok "the libraries for C are made over what it left" grep -qx 'over rt ci' "$copy/target/staticlib/libgpt_c.a"
ok "no crate is proved otherwise" not grep -q -e '^check' -e '^run' -e '^lib' "$stand_in/calls"
said_by "$copy/scripts/prove" lister gpt_c
ok "nor later, while nothing has changed" has '^prove: [0-9]* crates, unchanged since they were proved$'
ok "it keeps its output, with the time of each part" grep -q '^gate: rt ci ([0-9]* s)$' "$copy/target/gate.log"
ok "and when each line of rt's came" grep -q '^rt: units proved (at [0-9]* s)$' "$copy/target/gate.log"
ok "and the last line" [ "$(tail -n 1 "$copy/target/gate.log")" = "6 passed, 0 failed" ]
ok "what rt ci said is kept as it was" [ "$(cat "$copy/target/ci.log")" = "$(cat "$stand_in/ci")" ]
said_by make -s -C "$copy" gate-times
ok "make gate-times reads it" has '^ *[0-9]* s  units proved$'
: >"$stand_in/calls"
gate
ok "where rt ci has put back older libraries, rt looks after them" grep -qx lib "$stand_in/calls"
ok "and makes the libraries for C" grep -qx 'gpt_c by rt' "$copy/target/staticlib/libgpt_c.a"
rm -r "$copy"/crates/*/out

# refuses WHAT: the gate fails, and prints no line that says that all passed.
refuses() {
    gate
    ok "$1: the gate fails" [ "$status" -ne 0 ]
    ok "$1: no line says that all passed" [ "$(passes)" = 0 ]
}
echo 1 >"$copy/outside.status"
refuses "a test outside Rattle that fails"
echo 0 >"$copy/outside.status"
sets check.status 1
refuses "a library for C that is not proved"
ok "no test outside is then begun" not has '^outside:'
sets check.status 0
sets ci.status 1
refuses "rt ci that ends with 1"
ok "nothing is run behind it" not has '^outside:'
sets ci "5 passed, 1 failed"
refuses "an edit that is not refused"
ok "the count is told" has '5 passed, 1 failed'
sets ci.status 0
refuses "rt ci that counts a failure and ends with 0"
sets ci "0 passed, 0 failed"
refuses "rt ci that tries nothing"
sets ci "6 passed, 0 failed"
refuses "rt ci that does not say ok"
sets ci "rt: ok; handles allowed: none; must-fail edits: 2 refused; every proof and must-fail edit was done in this run
6 passed, 0 failed
rt: killed"
refuses "rt ci that stops behind its count"
sets ci "rt: ok; handles allowed: none; must-fail edits: 2 refused, 1 of them only by a limit, 3 bad; every proof and must-fail edit was done in this run
6 passed, 0 failed"
refuses "an edit that rt ci could not try"

# --- scripts/deps
: >"$stand_in/calls"
deps() { said_by env CC= PATH="$stand_in:$plain" "$copy/scripts/deps"; }
deps
ok "make deps succeeds" [ "$status" -eq 0 ]
ok "and says what it installed" has '^deps: installed.* gcc .*zlib1g-dev'
ok "by apt-get install" grep -q '^apt-get install .* gcc .*zlib1g-dev' "$stand_in/calls"
sets apt.status 100
deps
ok "where apt-get fails, make deps goes on" [ "$status" -eq 0 ]
ok "and says so" has '^deps: apt-get could not install'
: >"$stand_in/calls"
sets user 1000
deps
ok "who is not root is told what is missing" has '^deps: missing, and not installed.* cc .*zlib.h'
ok "and apt-get is not called" [ ! -s "$stand_in/calls" ]
ok "with exit status 0, too" [ "$status" -eq 0 ]

# --- tests/outside.sh, with a stand-in for make and for each command that a step needs
cd - >/dev/null || exit 1
makes="$room/makes"
mkdir "$makes"
cp tests/outside.sh "$copy/tests/outside.sh"
for name in python3 cmp cc cargo install valgrind sgdisk sfdisk fdisk parted dpkg-deb; do
    printf '#!/bin/sh\n' >"$makes/$name"
done
cat >"$makes/make" <<'END'
#!/bin/sh
# make -s TARGET: fails for the target in the file fails, and is skipped for the one in the file skips.
here=$(dirname "$0")
echo "this is what $2 said"
[ "$2" != "$(cat "$here/skips")" ] || echo "$2: skipped, nothing was compared"
[ "$2" != "$(cat "$here/fails")" ]
END
chmod +x "$makes"/*
steps=$(grep -c '^run ' tests/outside.sh)
# outside FAILS SKIPS: with these two targets.
outside() {
    echo "$1" >"$makes/fails"
    echo "$2" >"$makes/skips"
    said_by env PATH="$makes:$plain" "$copy/tests/outside.sh"
}
# A stand-in for the machine's name.
machine() { printf '#!/bin/sh\necho %s\n' "$1" >"$makes/uname"; }
machine x86_64
chmod +x "$makes/uname"
outside none none
ok "tests/outside.sh runs each step" last_is "outside: $steps ran, 0 skipped"
ok "and says how long it took" [ "$(printf '%s\n' "$said" | grep -c '^outside: .*: this is what .* said ([0-9]* s)$')" = "$steps" ]
outside none interop
ok "a step that skips itself is counted" last_is "outside: $((steps - 1)) ran, 1 skipped"
ok "and named with the reason" has '^outside: cards beside .*: SKIPPED, this is what interop said'
machine aarch64
outside none none
compiled=$(grep -c '^run .* x86-64' tests/outside.sh)
ok "on another processor what is compiled for x86-64 is skipped" last_is "outside: $((steps - compiled)) ran, $compiled skipped"
ok "and said so" has '^outside: the library for C: SKIPPED, this machine has no x86-64 processor$'
machine x86_64
for name in programs lib demo boundary; do
    outside "$name" none
    ok "make $name fails, and so does tests/outside.sh" [ "$status" -ne 0 ]
    ok "make $name fails, and its output is shown" has "^this is what $name said\$"
    ok "make $name fails, and the last lines say so" has "FAILED (make $name; [0-9]* s)"
    ok "make $name fails, and no line counts the steps" not has ' ran, '
done
rm "$makes/cmp"
outside none none
ok "a step whose command is missing is skipped" last_is "outside: $((steps - 1)) ran, 1 skipped"
ok "and the command is named" has 'SKIPPED, this machine has no cmp$'

# --- scripts/gate-times
said_by python3 scripts/gate-times tests/scripts/gate.log
ok "gate-times reads each form of line" [ "$said" = "$(cat tests/scripts/gate.times)" ]
said_by sh -c 'python3 scripts/gate-times <tests/scripts/gate.log'
ok "gate-times reads standard input" [ "$said" = "$(cat tests/scripts/gate.times)" ]
said_by python3 scripts/gate-times LICENSE
ok "gate-times refuses what is no log" [ "$status" -ne 0 ]
echo "scripts: $tried things tried, all as they should be"
