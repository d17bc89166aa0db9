#!/bin/sh
# Builds the pages of examples/c by the commands of their README, with the library below a prefix of its own, by the shared library and by the static one, and runs them in a row with checked output: a card laid, updated,
# cut after each stage, repaired and listed, and read by sfdisk and sgdisk where they are there. The last line says how many things were tried; one that fails is shown, and the exit status is 1.
cd "$(dirname "$0")/../.." || exit 1
PATH=$PATH:/usr/sbin:/sbin
room=$(mktemp -d) || exit 1
trap 'rm -rf "$room"' EXIT
tried=0
how="pkg-config's flags"

fail() {
    echo "examples: $*"
    exit 1
}

# The library below a prefix, as make install puts it; the compiler is make's, with no warning let through.
place="$room/place"
mkdir -p "$place/include" "$place/lib/pkgconfig" "$room/bin"
cp include/card.h "$place/include/"
cp target/lib/libcard.a "$place/lib/"
cp target/lib/libcard.so "$place/lib/libcard.so.0"
ln -s libcard.so.0 "$place/lib/libcard.so"
printf 'prefix=%s\nName: card\nDescription: GPT cards\nVersion: 0\nLibs: -L${prefix}/lib -lcard\nCflags: -I${prefix}/include\n' "$place" >"$place/lib/pkgconfig/card.pc"
# shellcheck disable=SC2086
set -- ${CC:-cc}
compiler=$(command -v "$1") || fail "there is no $1"
shift
printf '#!/bin/sh\nexec "%s" %s -Wall -Wextra -pedantic -Werror %s "$@" %s\n' "$compiler" "$*" "${CFLAGS--O2}" "${LDFLAGS-}" >"$room/bin/cc"
if ! command -v pkg-config >/dev/null 2>&1; then
    how="the flags that pkg-config would give"
    printf '#!/bin/sh\necho -I%s/include -L%s/lib -lcard\n' "$place" "$place" >"$room/bin/pkg-config"
fi
chmod +x "$room"/bin/*
export PKG_CONFIG_PATH="$place/lib/pkgconfig" LD_LIBRARY_PATH="$place/lib" PATH="$room/bin:$PATH" TZ=UTC LC_ALL=C.UTF-8

# says STATUS WANT COMMAND..: the command ends so and prints so, to either output. GUIDs that are drawn are printed as GUID.
says() {
    status=$1
    want=$2
    shift 2
    tried=$((tried + 1))
    got=$("$@" 2>&1)
    ended=$?
    got=$(printf '%s\n' "$got" | sed 's/GUID [0-9a-f-]\{36\}/GUID ../g')
    [ "$ended" = "$status" ] || fail "$* ends with $ended, not $status, and prints: $got"
    [ "$got" = "$want" ] || fail "$* prints
$got
and not
$want"
}

data=ebd0a0a2-b9e5-4433-87c0-68b6b72699c7
one="slot 1: 2048 to 131038, type $data, GUID .., \"north ridge\""
two="slot 2: 34 to 2047, type $data, GUID .., \"south slope\""
stages='stage 1: block 131039 stored. A cut here leaves the old table: the back one is half written, and readers take the front one.
stage 2: block 131071 stored. A cut here leaves the old table: both are whole, and readers take the front one.
stage 3: block 2 stored. A cut here leaves the new table: the front one is half written, and readers take the back one.
stage 4: block 1 stored. Both tables are new.'

# The slots that list shows, with their GUIDs, whatever it ends with.
slots() { ./list "$1" 2>/dev/null | grep '^slot'; }

# A put of slot 2 that is cut after each stage shows the old table or the new one, whole; the next update repairs it.
cuts() {
    slots field.img >old
    cp field.img whole.img
    ./update whole.img 2 40 2000 "south slope, dry" >/dev/null || fail "an update fails"
    slots whole.img >new
    cmp -s old new && fail "an update changes nothing"
    for stage in 0 1 2 3 4; do
        tried=$((tried + 1))
        cp field.img cut.img
        ./update cut.img 2 40 2000 "south slope, dry" "$stage" >/dev/null || fail "an update that is cut after stage $stage fails"
        slots cut.img >seen
        if [ "$stage" -lt 3 ]; then cmp old seen; else cmp new seen; fi || fail "after stage $stage another table is shown: $(cat seen)"
        ./list cut.img >/dev/null 2>&1
        case $stage.$? in 0.0 | 1.1 | 2.1 | 3.1 | 4.0) ;; *) fail "after stage $stage the list of a cut card has another exit status" ;; esac
        ./update cut.img 2 40 2000 "south slope, dry" >said || fail "after stage $stage an update fails: $(cat said)"
        cmp cut.img whole.img || fail "after stage $stage an update does not leave the new card"
    done
}

# A card with one damaged table is listed by the other one, and repaired before a put; with two damaged tables it is refused.
damaged() {
    cp field.img damaged.img
    dd if=/dev/zero of=damaged.img bs=512 seek=1 count=1 conv=notrunc 2>/dev/null
    says 1 "$one
$two
used 2 of 128; 131072 blocks of 512 bytes; the back table
damaged.img: listed, but not whole: refused 4, InvalidGptSignature: the front table's header does not begin with EFI PART. Nothing was changed. Next: if there is a good copy, update repairs it; else look whether this is a card." ./list damaged.img
    says 0 "damaged.img: the check refuses 4; readers take the back table
damaged.img: repaired: the front table now says what the other one says" ./update damaged.img 2 34 2047 "south slope" 0
    tried=$((tried + 1))
    cmp damaged.img field.img || fail "a repair does not leave the card as it was"
    dd if=/dev/zero of=damaged.img bs=512 seek=1 count=1 conv=notrunc 2>/dev/null
    dd if=/dev/zero of=damaged.img bs=512 seek=131071 count=1 conv=notrunc 2>/dev/null
    for program in list update; do
        what=$([ $program = list ] && echo "not listed" || echo "not put")
        says 1 "damaged.img: $what: refused 27, NoGoodCopy: neither table of the card can be read. Nothing was changed. Next: look whether this is a card of this length; of another maker's card, card uefi shows the table." \
            ./$program damaged.img $([ $program = list ] || echo 2 34 2047 south)
    done
}

# A file that is longer than the card that was copied to it, with an older card's back table at its end, is not repaired.
longer() {
    ./lay longer.img 134217728 "last year" >/dev/null || fail "a longer card is not laid"
    dd if=field.img of=longer.img conv=notrunc 2>/dev/null
    cp longer.img before.img
    says 1 "longer.img: not repaired and not put: refused 16, WrongLayout: the front table is not laid out as a card's. Nothing was changed. Next: compare the file's length with the card's; of another maker's card, card uefi shows the table." \
        ./update longer.img 2 34 2047 south
    cmp longer.img before.img || fail "a refused update changed a byte"
}

# A card that was copied over an older one with blocks of the other size is nobody's to repair; and what is not blank is not laid over.
older() {
    "$room/large" older.img 134217728 || fail "a card of blocks of 4,096 bytes is not laid"
    dd if=field.img of=older.img conv=notrunc 2>/dev/null
    cp older.img before.img
    both="older.img: shows tables of blocks of 512 and of 4,096 bytes, and one may be an older card's. Nothing was changed. Next: look at both by card list -b, and judge which card it is."
    says 1 "$both" ./update older.img 2 100 200 west
    says 1 "$both" ./list older.img
    cmp older.img before.img || fail "a refused update changed a byte"
    cp field.img grown.img
    truncate -s 134217728 grown.img
    says 1 "grown.img: is not blank where the tables go: another table, a card of another length or a file system may be there. Nothing was changed. Next: look at it, and move the file away." ./lay grown.img 134217728 gone
    truncate -s 0 grown.img
    truncate -s 34816 grown.img
    says 0 "grown.img: laid: 68 blocks of 512 bytes; slot 1 has blocks 34 to 34" ./lay grown.img 34816 new
    says 2 "STAGES is 0 to 4. Usage: update FILE SLOT FIRST LAST NAME [STAGES]" ./update field.img 3 34 34 west 7
    [ ! -e /dev/full ] || says 2 "what was done could not be printed: No space left on device. Next: run list." sh -c './list field.img >/dev/full'
    rm older.img grown.img
}

refusals() {
    cp field.img before.img
    says 1 "field.img: not put: refused 22, Overlap: a block that another slot has (slot 1). Nothing was changed. Next: list shows the free ranges." ./update field.img 3 2047 2048 west
    says 1 "field.img: not put: refused 18, BadSlot: there is no such slot or record. Nothing was changed. Next: name a slot from 1 to 128." ./update field.img 4294967297 34 34 west
    says 1 "field.img: has a card with 2 used slots, which a lay would drop. Nothing was changed. Next: move the file away." ./lay field.img 67108864 west
    says 1 "field.img: is there, with 67108864 bytes and not 67108865. Nothing was changed. Next: name its own length, or another file." ./lay field.img 67108865 west
    says 1 "small.img: not laid: refused 10, BackupLbaToEarly: there is no room between the two tables. Nothing was changed. Next: take a longer file, at least 34,816 bytes." ./lay small.img 34815 west
    [ ! -e small.img ] || fail "a refused lay makes a file"
    says 2 "none.img: cannot be opened: No such file or directory. Nothing was changed. Next: look at the name, and at who may open it." ./list none.img
    says 2 "the name is not taken: refused 40, LongName: the name has more than 36 UTF-16 units, from byte 36 on. Nothing was changed. Next: give a shorter one, in UTF-8." ./update field.img 3 34 34 0123456789012345678901234567890123456
    says 2 "the name is not taken: refused 39, BadText: the text is no GUID, or no UTF-8, or has a zero in it, from byte 1 on. Nothing was changed. Next: give a shorter one, in UTF-8." ./update field.img 3 34 34 "$(printf 'h\366hen')"
    says 2 "usage: update FILE SLOT FIRST LAST NAME [STAGES]" ./update field.img 3 34 34
    says 2 "x is no number. Usage: update FILE SLOT FIRST LAST NAME [STAGES]" ./update field.img x 34 34 west
    says 2 "usage: list FILE" ./list
    cmp field.img before.img || fail "a refused command changed a byte"
}

# The labels' dates, the smallest card, and the same file by other makers' tools.
others() {
    printf 'FBM\001\000\352\007\005\001\003\000\014\000' | dd of=field.img bs=512 seek=2048 conv=notrunc 2>/dev/null
    says 0 "$one of 2026-05-01, style 3, sheet 12
$two
used 2 of 128; 131072 blocks of 512 bytes; whole" ./list field.img
    printf 'a", "b\\\342\200\256c' >odd
    says 0 "odd.img: laid: 68 blocks of 512 bytes; slot 1 has blocks 34 to 34" ./lay odd.img 34816 "$(cat odd)"
    says 0 "slot 1: 34 to 34, type $data, GUID .., \"a\\\", \\\"b\\\\?c\"
used 1 of 128; 68 blocks of 512 bytes; whole" ./list odd.img
    rm odd odd.img
    says 0 "small.img: laid: 68 blocks of 512 bytes; slot 1 has blocks 34 to 34" ./lay small.img 34816 "$(printf 'Höhe 🔥 \302\205')"
    says 0 "slot 1: 34 to 34, type $data, GUID .., \"Höhe 🔥 ?\"
used 1 of 128; 68 blocks of 512 bytes; whole" ./list small.img
    rm small.img
    if command -v sfdisk >/dev/null 2>&1; then
        says 0 "field.img1 : start=        2048, size=      128991, type=EBD0A0A2-B9E5-4433-87C0-68B6B72699C7, name=\"north ridge\"
field.img2 : start=          34, size=        2014, type=EBD0A0A2-B9E5-4433-87C0-68B6B72699C7, name=\"south slope\"" \
            sh -c 'sfdisk -d field.img | sed -n "s/, uuid=[0-9A-F-]*//; /^field/p"'
    fi
    if command -v sgdisk >/dev/null 2>&1; then
        says 0 "No problems found" sh -c 'sgdisk -v field.img | grep -o "No problems found"'
    fi
}

# in_a_row LIBRARY: all of it, by the commands of the README.
in_a_row() {
    there="$room/$1"
    mkdir "$there"
    cp examples/c/* "$there/"
    [ "$1" = shared ] || rm -f "$place/lib/libcard.so"
    (cd "$there" && sed -n 's/^    cc /cc /p' README.md >build && sh -e build) || fail "the pages do not compile by the $1 library"
    sed -n 's/^    \.\//.\//p' "$there/README.md" >"$there/row"
    cd "$there" || exit 1
    says 0 "field.img: laid: 131072 blocks of 512 bytes; slot 1 has blocks 2048 to 131038
$stages
$one
$two
used 2 of 128; 131072 blocks of 512 bytes; whole" sh -e row
    cuts
    damaged
    longer
    older
    refusals
    others
    rm -f ./*.img
    cd - >/dev/null || exit 1
}

cc -std=c11 -Iexamples/c -I"$place/include" -o "$room/large" tests/examples/large.c "$place/lib/libcard.a" || fail "the page for blocks of 4,096 bytes does not compile"
in_a_row shared
in_a_row static
grep -q 'libcard\.so\.0' "$room/shared/list" || fail "the shared program does not ask for libcard.so.0"
grep -q 'libcard\.so' "$room/static/list" && fail "the static program asks for the shared library"
echo "examples: lay, update and list by both libraries ($how): $tried things tried, as they must be"
