"""--dry-run of every command that writes: no byte changes, and the blocks that it names are those that the command then changes."""
import os
import re

import gpt
from check import damaged

ENTRIES = {1: gpt.Entry(34, 37, "map", gpt.guid(1)), 6: gpt.Entry(38, 39, "roads", gpt.guid(6))}
BLOCK = re.compile(r"would write block (\d+) \((.*)\): (\d+) bytes? differs?")
BYTES = re.compile(r"would write bytes (\d+) to (\d+) of the file \(slot (\d+), from place (\d+)\)")


def named(block, blocks, size):
    """A table's block in words; None for another block."""
    array, slots = 16384 // size, size // 128
    for first, word in ((2, "front"), (blocks - 1 - array, "back")):
        if first <= block < first + array:
            return f"{word} array, slots {(block - first) * slots + 1} to {(block - first + 1) * slots}"
    return {0: "protective MBR", 1: "front header", blocks - 1: "back header"}.get(block)


def differing(old, new, size):
    """The blocks that differ, with the number of their bytes that do."""
    old = old.ljust(len(new), b"\0")
    found = {}
    for block in range(-(-len(new) // size)):
        pair = old[block * size:(block + 1) * size], new[block * size:(block + 1) * size]
        if pair[0] != pair[1]:
            found[block] = sum(x != y for x, y in zip(*pair))
    return found


def said(lines):
    blocks = {int(m[1]): (m[2], int(m[3])) for m in map(BLOCK.fullmatch, lines) if m}
    ranges = [tuple(map(int, m.groups())) for m in map(BYTES.fullmatch, lines) if m]
    return blocks, ranges


def compare(b, what, words, size, ranges=(), file="a.img"):
    """A dry run, and then the run: the same blocks, the same counts, and payload in the ranges alone."""
    there = os.path.exists(b.path(file))
    old = b.bytes(file) if there else b""
    done = b.run(*words, "-b", size, "--dry-run")
    lines = done.out.splitlines() or [""]
    b.equal(f"{what} --dry-run: status", (done.status, done.err), (0, ""))
    b.equal(f"{what} --dry-run: last line", lines[-1], "dry run: nothing was written")
    b.true(f"{what} --dry-run: no byte changes", (b.bytes(file) == old) if there else not os.path.exists(b.path(file)))
    blocks, came = said(lines[:-1])
    b.equal(f"{what} --dry-run: every line of it is understood", len(blocks) + len(came), sum(line.startswith("would ") for line in lines))
    b.equal(f"{what} --dry-run: the payload", came, list(ranges))
    b.equal(f"{what}: status", b.run(*words, "-b", size).status, 0)
    new = b.bytes(file)
    count = len(new) // size
    changed = differing(old, new, size)
    tables = {k: (named(k, count, size), v) for k, v in changed.items() if named(k, count, size)}
    b.equal(f"{what} --dry-run: the blocks of the tables", blocks, tables)
    rest = [k for k in changed if k not in tables and not any(f <= k * size + size - 1 and k * size <= t for f, t, *_ in ranges)]
    b.equal(f"{what}: no other block changes", rest, [])


def at(size, first, length, slot, place=0):
    return [(first * size + place, first * size + place + length - 1, slot, place)]


def run(b):
    for size in (512, 4096):
        whole = gpt.card(128, size, ENTRIES, fill=0xA5)
        cases = (
            ("put", whole, ("put", "a.img", "33", "--first", "40", "--last", "50", "--guid", gpt.guid(9), "--name", "n"), ()),
            ("put over", whole, ("put", "a.img", "1", "--first", "34", "--last", "37", "--guid", gpt.guid(1), "--name", "map 2"), ()),
            ("put next", whole, ("put", "a.img", "next", "--size", "1K", "--guid", gpt.guid(9)), ()),
            ("clear", whole, ("clear", "a.img", "6"), ()),
            ("clear unused", whole, ("clear", "a.img", "9"), ()),
            ("clear --wipe", whole, ("clear", "a.img", "6", "--wipe"), at(size, 38, 2 * size, 6)),
            ("write", whole, ("write", "a.img", "1", "src"), at(size, 34, 700, 1)),
            ("write --at", whole, ("write", "a.img", "1", "src", "--at", "13"), at(size, 34, 700, 1, 13)),
            ("label", whole, ("label", "a.img", "1", "--date", "2026-05-01", "--style", "3", "--sheet", "1"), at(size, 34, 13, 1)),
            ("repair", damaged(whole, size, True, 4), ("repair", "a.img"), ()),
            ("repair the back", damaged(whole, size, False, 6), ("repair", "a.img"), ()),
            ("repair of a whole card", whole, ("repair", "a.img"), ()),
            ("lay", bytes(128 * size), ("lay", "a.img", "--guid", gpt.DISK), ()),
            ("lay --force", whole, ("lay", "a.img", "--force", "--guid", gpt.guid(0x99)), ()),
        )
        b.store("src", b.rng.randbytes(700))
        for what, image, words, ranges in cases:
            b.store("a.img", image)
            compare(b, f"{what} at {size}", words, size, ranges)
        b.remove("n.img")
        compare(b, f"lay of a new file at {size}", ("lay", "n.img", "--size", 128 * size, "--guid", gpt.DISK), size, file="n.img")
        grown(b, size)
    refused(b)


def grown(b, size):
    """grow: the new back table's blocks and the front header; the old back table lies in usable ground then, and has no name."""
    b.store("a.img", gpt.card(128, size, ENTRIES) + bytes(128 * size))
    old = b.bytes("a.img")
    done = b.run("grow", "a.img", "-b", size, "--dry-run")
    b.equal("grow --dry-run: status and last line", (done.status, done.out.splitlines()[-1:]), (0, ["dry run: nothing was written"]))
    b.true("grow --dry-run: no byte changes", b.bytes("a.img") == old)
    b.equal("grow: status", b.run("grow", "a.img", "-b", size).status, 0)
    changed = differing(old, b.bytes("a.img"), size)
    came = {int(m[1]): int(m[2]) for m in re.finditer(r"would write block (\d+) \([^)]*\): (\d+) bytes? differ", done.out)}
    b.equal("grow --dry-run: the blocks", came, changed)


def refused(b):
    """Refusals are those of the run itself."""
    b.store("src", bytes(5000))
    b.store("a.img", gpt.card(128, entries=ENTRIES))
    b.refuses(("put", "a.img", "9", "--first", "34", "--last", "34", "--dry-run"), 'card: slot 9 not put: blocks 34 to 34 overlap slot 1 "map" (34 to 37). Nothing was changed. [22]')
    b.refuses(("clear", "a.img", "200", "--dry-run"), "card: slot 200 not cleared: there is no slot 200: a card has slots 1 to 128. Nothing was changed. [18]")
    b.refuses(("write", "a.img", "1", "src", "--dry-run"), "card: slot 1 not written: bytes 0 to 4999 pass its end: the partition has 2048 bytes. Nothing was changed. [24]")
    b.refuses(("lay", "a.img", "--dry-run"), "card: a.img is a card with 2 used slots, and laying drops them. Nothing was changed. To lay it anew: card lay --force a.img")
