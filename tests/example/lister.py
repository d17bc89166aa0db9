#!/usr/bin/env python3
"""Runs target/bin/lister on cards of the independent maker and on what it must refuse, and compares all that it prints with document 01's words; and free_ground
likewise with document 02's 1/13, and uefi_lister with 9/13, in the lister's form. Then runs all three, sums and sample with input and output that fail: that is said on standard error, and is never a verdict.
And sums on input of any length, cut in any way."""
import os
import subprocess
import sys
import zlib

import failing
import make_card

HEAD = "slot first last blocks\n"


def at_slots(blocks, spans):
    """A card with a partition at each of these slots: {slot: (first, last)}."""
    empty = bytes(128)
    entries = [make_card.entry(s, *spans[s], f"map {s}") if s in spans else empty for s in range(1, max(spans, default=0) + 1)]
    return make_card.card(blocks, 512, entries)


def damaged(image, place):
    return image[:place] + bytes([image[place] ^ 1]) + image[place + 1:]


ONE = at_slots(68, {1: (34, 34)})
CASES = [
    ("document 01's example", ONE, HEAD + "1 34 34 1\nused 1\n"),
    ("no slot used", at_slots(68, {}), HEAD + "used 0\n"),
    ("slots 1, 2 and 128", at_slots(128, {1: (34, 60), 2: (61, 61), 128: (90, 94)}), HEAD + "1 34 60 27\n2 61 61 1\n128 90 94 5\nused 3\n"),
    ("slots out of the order of their blocks", at_slots(128, {3: (90, 94), 7: (34, 40)}), HEAD + "3 90 94 5\n7 34 40 7\nused 2\n"),
    ("all 61 blocks, one slot each", at_slots(128, {s: (33 + s, 33 + s) for s in range(1, 62)}), HEAD + "".join(f"{s} {33 + s} {33 + s} 1\n" for s in range(1, 62)) + "used 61\n"),
    ("the longest input", at_slots(128, {128: (34, 94)}), HEAD + "128 34 94 61\nused 1\n"),
    ("bytes after the last whole block", ONE + bytes(511), HEAD + "1 34 34 1\nused 1\n"),
    ("one byte too many", bytes(65537), "too long\n"),
    ("nothing", b"", "refused 8\n"),
    ("1,535 bytes", bytes(1535), "refused 8\n"),
    ("67 blocks", bytes(67 * 512), "refused 10\n"),
    ("68 blocks of zeros", bytes(68 * 512), "refused 4\n"),
    ("a header's sum", damaged(ONE, 512 + 16), "refused 5\n"),
    ("an array's byte", damaged(ONE, 1024 + 60), "refused 6\n"),
    ("the back array's byte", damaged(ONE, 35 * 512 + 60), "refused 6\n"),
    ("two cards' tables", ONE[:34 * 512] + at_slots(68, {2: (34, 34)})[34 * 512:], "refused 17\n"),
    ("two slots on one block", at_slots(68, {1: (34, 34), 2: (34, 34)}), "refused 16\n"),
]


FREE_HEAD = "first last blocks\n"
FREE = [
    ("document 01's example", ONE, FREE_HEAD + "runs 0\n"),
    ("no slot used", at_slots(68, {}), FREE_HEAD + "34 34 1\nruns 1\n"),
    ("holes at both ends and in the middle", at_slots(128, {1: (60, 69), 2: (36, 49)}), FREE_HEAD + "34 35 2\n50 59 10\n70 94 25\nruns 3\n"),
    ("slots side by side", at_slots(128, {1: (35, 60), 2: (61, 93)}), FREE_HEAD + "34 34 1\n94 94 1\nruns 2\n"),
    ("every other block", at_slots(128, {s: (33 + 2 * s, 33 + 2 * s) for s in range(1, 31)}), FREE_HEAD + "".join(f"{b} {b} 1\n" for b in range(34, 95, 2)) + "runs 31\n"),
    ("bytes after the last whole block", at_slots(68, {}) + bytes(511), FREE_HEAD + "34 34 1\nruns 1\n"),
    ("one byte too many", bytes(65537), "too long\n"),
    ("nothing", b"", "refused 8\n"),
    ("67 blocks", bytes(67 * 512), "refused 10\n"),
    ("two slots on one block", at_slots(68, {1: (34, 34), 2: (34, 34)}), "refused 16\n"),
]
UEFI_HEAD = "slot first last blocks name\n"
OTHER = make_card.CARDS["uefi_lister"]()
OTHER_LINES = "1 34 65 32 map 2026-11-15\n3 66 85 20 h\u00f6hen \u9ad8\u7a0b\n16 86 94 9 notes\nused 3\n"


def other(stated=92, each=128, count=128, slots=None, **more):
    """Another maker's card of 128 blocks."""
    return make_card.other_card(128, 512, make_card.other_slots(each) if slots is None else slots, each, count, stated=stated, **more)


ODD = {1: make_card.entry(1, 9, 8, "\ud800\t\x7f\u007e\u0080\u00a0\u07ff\u0800\uffff"), 2: make_card.entry(2, 0, 2 ** 64 - 1, "A" * 36)}
UEFI = [
    ("another maker's card", OTHER, UEFI_HEAD + OTHER_LINES + "edition second\n"),
    ("document 01's example", ONE, UEFI_HEAD + "1 34 34 1 map 1\nused 1\nedition both\n"),
    ("92 bytes, entries of 128, one of nil type", other(), UEFI_HEAD + OTHER_LINES + "edition both\n"),
    ("96 bytes", other(96), UEFI_HEAD + OTHER_LINES + "edition second\n"),
    ("entries of 256", other(each=256, count=16), UEFI_HEAD + OTHER_LINES + "edition second\n"),
    ("names and blocks at their edges", other(slots=ODD), UEFI_HEAD + "1 9 8 - ???~?\u00a0\u07ff\u0800\uffff\n2 0 18446744073709551615 - " + "A" * 36 + "\nused 2\nedition both\n"),
    ("no slot used", other(128, slots={}), UEFI_HEAD + "used 0\nedition second\n"),
    ("a byte after 92", damaged(ONE, 512 + 92), "refused 30\nedition first\n"),
    ("entries of 384", other(each=384, count=16), "refused 7\nedition none\n"),
    ("a header's sum", damaged(ONE, 512 + 16), "refused 5\nedition none\n"),
    ("one byte too many", bytes(65537), "too long\n"),
    ("nothing", b"", "refused 2\nedition none\n"),
]
HOLES = make_card.CARDS["free_ground"]()
FREED = FREE_HEAD + "runs 0\n"
LISTED = HEAD + "1 34 34 1\nused 1\n"
USAGE = {
    "lister": "usage: lister < IMAGE (blocks of 512 bytes, 65,536 bytes at most; the exit status is always 0, so read what is printed)\n",
    "free_ground": "usage: free_ground < IMAGE (blocks of 512 bytes, 65,536 bytes at most; the exit status is always 0, so read what is printed)\n",
    "uefi_lister": "usage: uefi_lister < IMAGE (blocks of 512 bytes, 65,536 bytes at most; the exit status is always 0, so read what is printed)\n",
    "sums": "usage: sums < BYTES (any number of them; the exit status is always 0, so read what is printed)\n",
    "sample": "usage: sample > IMAGE (65,536 bytes; the exit status is always 0, so read what is printed on standard error)\n",
}


def stored(program):
    with open(os.path.join(os.path.dirname(os.path.abspath(__file__)), "..", "..", "crates", program, "stdout"), "rb") as f:
        return f.read().decode("latin-1")


def arguments(program):
    """What a program that takes no arguments says to some."""
    usage = USAGE[program]
    return [
        ("--help", (usage, "", 0), lambda: failing.run(program, "--help")),
        ("a file's name", ("", usage, 0), lambda: failing.run(program, "/dev/null")),
        ("an empty argument", ("", usage, 0), lambda: failing.run(program, "")),
        ("--help and more", ("", usage, 0), lambda: failing.run(program, "--help", "--help")),
        ("a word that begins like --help", ("", usage, 0), lambda: failing.run(program, "--helpful")),
    ]


def inputs(program, before):
    """Input that fails; `before` is what the program prints before it reads."""
    want = (before, f"{program}: cannot read the input\n", 0)
    return [
        ("closed input", want, lambda: failing.closed_input(program)),
        ("a directory", want, lambda: failing.directory(program)),
        ("a file that is open for writing", want, lambda: failing.open_for_writing(program)),
        ("EIO", want, lambda: failing.input_error(program)),
        ("EAGAIN", want, lambda: failing.not_ready(program)),
        ("EAGAIN after 1,536 bytes", want, lambda: failing.not_ready(program, bytes(1536))),
    ]


def slow(program, image, output):
    """Input that is slow or interrupted, which is read to its end."""
    want = (output, "", 0)
    return [
        ("small pieces", want, lambda: failing.small_pieces(program, image)),
        ("stopped on a pipe", want, lambda: failing.stopped_on_pipe(program, image)),
        ("EINTR", want, lambda: failing.interrupted_read(program, image)),
    ]


def long_inputs(vectors):
    """Input of `sums` that is longer than what it reads at once, whole and cut unevenly: the sum is zlib's. The last is longer than 32 bits can count."""
    def line(total, n):
        return vectors + "%08x %d bytes of standard input\n" % (total, n), "", 0

    rows = []
    for n in (65535, 65536, 65537, 1000003):
        data = bytes(k * k >> 7 & 255 for k in range(n))
        want = line(zlib.crc32(data), n)
        rows.append((f"{n} bytes of a file", want, lambda data=data: failing.from_file("sums", data)))
        rows.append((f"{n} bytes, cut unevenly", want, lambda data=data: failing.uneven_pieces("sums", data)))
    return rows + [("4 GiB of zeros and one more", line(0x41D912FF, 2 ** 32 + 1), lambda: failing.zeros("sums", 2 ** 32 + 1))]


def outputs(program, image, output):
    """Output that fails: at the first byte, and after some."""
    said = f"{program}: cannot write the output\n"
    want = ("", said, 0)
    return [
        ("a full disk", want, lambda: failing.full(program, image)),
        ("closed output", want, lambda: failing.closed_output(program, image)),
        ("a closed pipe, SIGPIPE ignored", want, lambda: failing.broken_pipe(program, image, True)),
        # Rattle's startup code ignores the signal of a closed pipe, whatever it was before.
        ("a closed pipe", want, lambda: failing.broken_pipe(program, image, False)),
        ("a full pipe that does not block", want, lambda: failing.full_pipe(program, image)),
        ("a disk that is full after 30 bytes", (output[:30], said, 0), lambda: failing.full_after(program, image, 30)),
    ]


def failures():
    """All such runs: the program, what it is run on, what it must write and its status, and the run."""
    vectors = stored("sums")
    vectors = vectors[:vectors.rindex("\n", 0, -1) + 1]
    text = b"123456789"
    sums = vectors + "cbf43926 9 bytes of standard input\n"
    runs = {
        "lister": inputs("lister", "") + slow("lister", ONE, LISTED) + outputs("lister", ONE, LISTED) + arguments("lister"),
        "free_ground": inputs("free_ground", "") + slow("free_ground", ONE, FREED) + outputs("free_ground", HOLES, stored("free_ground")) + arguments("free_ground"),
        "uefi_lister": inputs("uefi_lister", "") + slow("uefi_lister", ONE, UEFI[1][2]) + outputs("uefi_lister", ONE, UEFI[1][2]) + arguments("uefi_lister"),
        "sums": inputs("sums", vectors) + slow("sums", text, sums) + long_inputs(vectors) + outputs("sums", text, sums) + arguments("sums"),
        "sample": outputs("sample", b"", stored("sample")) + arguments("sample") + [
            ("closed input, which it does not read", (stored("sample"), "", 0), lambda: failing.closed_input("sample")),
            ("EINTR", (stored("sample"), "", 0), lambda: failing.interrupted_write("sample", b"")),
        ],
    }
    return [(program, *row) for program in runs for row in runs[program]]


def shown(text):
    return repr(text) if len(text) < 160 else f"{text[:30]!r} .. {text[-60:]!r} ({len(text)} bytes)"


def main():
    wrong = 0
    for program, what, image, want in [("lister", *case) for case in CASES] + [("free_ground", *case) for case in FREE] + [("uefi_lister", *case) for case in UEFI]:
        got = subprocess.run([os.path.join(failing.BIN, program)], input=image, capture_output=True).stdout.decode()
        if got != want:
            wrong += 1
            print(f"{program}: {what}: printed {got!r}, not {want!r}")
    runs = failures()
    for program, what, want, start in runs:
        got = start()
        if got != want:
            wrong += 1
            print(f"{program}: {what}: wrote {shown(got[0])}, said {shown(got[1])}, status {got[2]}; not {shown(want[0])}, {shown(want[1])}, {want[2]}")
    print(f"lister: {len(CASES)} inputs, free_ground: {len(FREE)}, uefi_lister: {len(UEFI)}, and {len(runs)} runs of these, sums and sample with input, output or arguments that fail, and of sums on long input; {wrong} wrong")
    return 1 if wrong else 0


if __name__ == "__main__":
    sys.exit(main())
