"""check: whole cards and their warnings, and the words of every refusal of the check, by each command that asks it."""
import struct

import gpt
from bench import like

ENTRIES = {1: gpt.Entry(34, 65, "north ridge", gpt.guid(1)), 2: gpt.Entry(66, 85, "roads", gpt.guid(2)), 5: gpt.Entry(86, 94, "notes", gpt.guid(5))}
WORDS = {4: "the header does not begin with EFI PART", 5: "the header's check sum does not match", 6: "the entry check sum does not match", 16: "it is not laid out as a card's"}
READERS = (("check",), ("list",), ("list", "--json"), ("list", "--map"), ("free",), ("read", "1"), ("label", "1"), ("screen", "1"))
WRITERS = (("put", "9", "--first", "40", "--last", "40"), ("put", "next", "--size", "512"), ("clear", "1"), ("clear", "1", "--wipe"), ("write", "1", "src"),
           ("label", "1", "--date", "2026-05-01", "--style", "3", "--sheet", "1"))
NEITHER = "neither table can be read: lay it anew, or read it by card uefi a.img"


def damaged(image, size, front, number):
    """The image with one table wrong in a way that the check refuses by this number."""
    head, array = gpt.places(len(image), size, front)
    if number == 4:
        return gpt.stored(image, head, b"X")
    if number == 5:
        return gpt.stored(image, head + 60, bytes([image[head + 60] ^ 1]))
    if number == 6:
        return gpt.stored(image, array + 60, bytes([image[array + 60] ^ 1]))
    return gpt.sealed(gpt.stored(image, head + 48, struct.pack("<Q", 93)), size, front, array=False)


def whole_cards(b):
    aligned = {1: gpt.Entry(2048, 4095, "a", gpt.guid(1)), 128: gpt.Entry(4096, 4096, "b", gpt.guid(2))}
    b.store("a.img", gpt.card(8192, entries=aligned))
    line = f"a.img: whole: 8192 blocks of 512 bytes (4 MiB), 2 of 128 slots used, GUID {gpt.DISK}\n"
    b.says(("check", "a.img"), line)
    b.store("a.img", gpt.stored(b.bytes("a.img"), 0, bytes(512)))
    b.says(("check", "a.img"), line + "warning: block 0 has no protective MBR: other tools see a blank card\n")
    for place in (510, 450):
        b.store("a.img", gpt.stored(gpt.card(8192, entries=aligned), place, b"\x11"))
        b.says(("check", "a.img"), line + "warning: block 0 has no protective MBR: other tools see a blank card\n")
    b.store("a.img", gpt.card(8192, entries=aligned, after=100))
    b.says(("check", "a.img"), line + "warning: 100 bytes after the last whole block are no part of the card\n")
    uneven = {1: gpt.Entry(2048, 2050, "a", gpt.guid(1)), 3: gpt.Entry(34, 40, "b", gpt.guid(2)), 4: gpt.Entry(2051, 2052, "c", gpt.guid(4))}
    b.store("a.img", gpt.card(8192, entries=uneven))
    warned = "".join(f"warning: slot {s} begins at block {f}, which is no multiple of 1 MiB\n" for s, f in ((3, 34), (4, 2051)))
    b.says(("check", "a.img"), line.replace("2 of", "3 of") + warned)
    b.store("a.img", gpt.stored(gpt.card(8192, entries=uneven, after=7), 0, bytes(512)))
    done = b.run("check", "a.img")
    want = [line.replace("2 of", "3 of"), "warning: block 0 has no protective MBR: other tools see a blank card\n", "warning: 7 bytes after the last whole block are no part of the card\n", *warned.splitlines(True)]
    b.equal("all warnings of one card, in the specification's order", done.out.splitlines(True), want)
    b.store("a.img", gpt.card(1024, 4096, {1: gpt.Entry(256, 300, "a", gpt.guid(1)), 2: gpt.Entry(301, 302, "b", gpt.guid(2))}))
    b.says(("check", "a.img", "-b", "4096"), f"a.img: whole: 1024 blocks of 4096 bytes (4 MiB), 2 of 128 slots used, GUID {gpt.DISK}\n"
           "warning: slot 2 begins at block 301, which is no multiple of 1 MiB\n")


def one_table(b):
    """One table damaged in each way, before every command that asks the check."""
    whole = gpt.card(128, entries=ENTRIES)
    b.store("src", b"map")
    for front in (True, False):
        here, there = ("front", "back") if front else ("back", "front")
        for number, words in WORDS.items():
            b.store("a.img", damaged(whole, 512, front, number))
            line = f"card: a.img: {here} table: {words}; the {there} is good: card repair a.img"
            for command, *more in READERS if number in (4, 6) and front else READERS[:1]:
                b.refuses((command, "a.img", *more), f"{line} [{number}]")
            for command, *more in WRITERS if number == 6 or not front and number == 16 else WRITERS[:1]:
                b.refuses((command, "a.img", *more), f"{line}. Nothing was changed. [{number}]")


def one_table_wide(b):
    """The same at 4096, where the advice names the block size too."""
    whole = gpt.card(128, 4096, ENTRIES)
    for front, here, there in ((True, "front", "back"), (False, "back", "front")):
        for number, words in WORDS.items():
            b.store("a.img", damaged(whole, 4096, front, number))
            b.refuses(("check", "a.img", "-b", "4096"), like(f"card: a.img: {here} table: {words}; the {there} is good: card repair -b 4096 a.img [{number}]\n"))


def wrong_entries(b):
    """Tables whose sums are right and whose entries are not a card's: 16 where both have them, and 17 where one does; the reader takes the other."""
    whole = gpt.card(128, entries=ENTRIES)
    wrong = {"the last block before the first": gpt.Entry(90, 88, "x", gpt.guid(7)), "a block outside": gpt.Entry(95, 95, "x", gpt.guid(7)), "a block of another slot": gpt.Entry(34, 34, "x", gpt.guid(7)),
             "a GUID of another slot": gpt.Entry(94, 94, "x", gpt.guid(1))}
    for what, entry in wrong.items():
        image = whole
        if what == "a GUID of another slot":
            image = gpt.with_slot(gpt.with_slot(image, 512, True, 5, gpt.Entry(86, 93, "notes", gpt.guid(5))), 512, False, 5, gpt.Entry(86, 93, "notes", gpt.guid(5)))
        front = gpt.with_slot(image, 512, True, 9, entry)
        b.store("a.img", gpt.with_slot(front, 512, False, 9, entry))
        b.refuses(("check", "a.img"), f"card: a.img: front table: {WORDS[16]}; {NEITHER} [16]")
        b.store("a.img", front)
        b.refuses(("check", "a.img"), 'card: a.img: the two tables differ, first in slot 9 ("x" in front, unused at the back); the reader takes the back: card repair a.img [17]')
        b.store("a.img", gpt.with_slot(image, 512, False, 9, entry))
        b.refuses(("check", "a.img"), 'card: a.img: the two tables differ, first in slot 9 (unused in front, "x" at the back); the reader takes the front: card repair a.img [17]')


def both_tables(b):
    whole = gpt.card(128, entries=ENTRIES)
    for number, words in WORDS.items():
        b.store("a.img", damaged(damaged(whole, 512, True, number), 512, False, 4))
        b.refuses(("check", "a.img"), f"card: a.img: front table: {words}; {NEITHER} [{number}]")
        b.refuses(("put", "a.img", "9", "--size", "512"), f"card: a.img: front table: {words}; {NEITHER}. Nothing was changed. [{number}]")
    for what, image in (("zeros", bytes(65536)), ("random", b.rng.randbytes(65536))):
        b.store("a.img", image)
        b.refuses(("check", "a.img"), f"card: a.img: front table: {WORDS[4]}; {NEITHER} [4]")
        b.refuses(("show", "a.img"), like(f"card: a.img: neither table can be read: {{..}}{WORDS[4]}. [27]\n"))
    for length in (0, 1, 511, 512, 1024, 1536, 67 * 512):
        b.store("a.img", whole[:length])
        done = b.refuses(("check", "a.img"), like("card: a.img{..} [{n}]\n"))
        b.true(f"a file of {length} bytes: the number", done.err.rstrip().endswith(("[2]", "[8]", "[10]")), done.err)
        b.refuses(("put", "a.img", "1", "--first", "34", "--last", "34"), like("card: a.img{..} Nothing was changed. [{n}]\n"))
        b.refuses(("show", "a.img"), like("card: a.img{..} [{n}]\n"))


def lengths(b):
    """A card of the other block size, one that was cut, and one that grew."""
    b.store("a.img", gpt.card(128, 4096, {1: gpt.Entry(6, 7, "x", gpt.guid(1))}))
    b.refuses(("check", "a.img"), f"card: a.img: front table: {WORDS[4]}; a card with blocks of 4096 bytes is there: try -b 4096 [4]")
    b.refuses(("clear", "a.img", "1"), f"card: a.img: front table: {WORDS[4]}; a card with blocks of 4096 bytes is there: try -b 4096. Nothing was changed. [4]")
    b.store("a.img", gpt.card(128, 512, ENTRIES))
    b.refuses(("list", "-b", "4096", "a.img"), f"card: a.img: front table: {WORDS[4]}; a card with blocks of 512 bytes is there: try -b 512 [4]")
    b.store("a.img", gpt.card(128, entries=ENTRIES)[:100 * 512])
    b.refuses(("check", "a.img"), f"card: a.img: front table: {WORDS[16]}; {NEITHER} [16]")
    b.store("a.img", gpt.card(128, entries=ENTRIES) + bytes(128 * 512))
    grew = f"card: a.img: front table: {WORDS[16]}; it is laid for 128 blocks, and the file has 256: card grow a.img"
    b.refuses(("check", "a.img"), grew + " [16]")
    b.refuses(("free", "a.img"), grew + " [16]")
    b.refuses(("put", "a.img", "next", "--size", "512"), grew + ". Nothing was changed. [16]")


def differing(b):
    """Both tables good, and not the same: 17."""
    whole = gpt.card(128, entries=ENTRIES)
    head = gpt.places(len(whole), 512, False)[0]
    image = gpt.sealed(gpt.stored(whole, head + 56, bytes(range(16))), 512, False)
    b.store("a.img", image)
    line = "card: a.img: the two tables have different disk GUIDs; the reader takes the front: card repair a.img"
    b.refuses(("check", "a.img"), line + " [17]")
    b.refuses(("clear", "a.img", "1"), line + ". Nothing was changed. [17]")
    named = gpt.Entry(34, 65, "map 15 Nov", gpt.guid(1))
    cases = ((1, named, '"north ridge" in front, "map 15 Nov" at the back'), (2, None, '"roads" in front, unused at the back'),
             (9, gpt.Entry(90, 90, "new", gpt.guid(9)), 'unused in front, "new" at the back'))
    for slot, entry, words in cases:
        base = gpt.with_slot(gpt.with_slot(whole, 512, True, 5, None), 512, False, 5, None) if slot == 9 else whole
        b.store("a.img", gpt.with_slot(base, 512, False, slot, entry))
        line = f"card: a.img: the two tables differ, first in slot {slot} ({words}); the reader takes the front: card repair a.img"
        b.refuses(("check", "a.img"), line + " [17]")
        b.refuses(("write", "a.img", "1", "src"), line + ". Nothing was changed. [17]")


def run(b):
    whole_cards(b)
    one_table(b)
    one_table_wide(b)
    wrong_entries(b)
    both_tables(b)
    lengths(b)
    differing(b)
