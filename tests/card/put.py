"""put and clear: the lines, the bytes of both tables, where --size lands, and every refusal with no byte changed."""
import gpt
from bench import like

ONE = {1: gpt.Entry(34, 65, "north ridge", gpt.guid(1))}


def line(slot, e, size=512, before=None):
    held = f"; it held {holding(before, size)}" if before else ""
    return f'slot {slot} put: blocks {e.first} to {e.last} ({gpt.words((e.last - e.first + 1) * size)}), type {gpt.type_word(e.type)}, GUID {e.guid}, {gpt.row(slot, e, size)[7]}{held}\n'


def holding(e, size=512):
    """What a slot holds, in the words of a put over it."""
    kind = "" if e.type == gpt.TYPES["data"] else f", type {gpt.type_word(e.type)}"
    return f"{gpt.row(1, e, size)[7]}, blocks {e.first} to {e.last} ({gpt.words((e.last - e.first + 1) * size)}){kind}"


def words(slot, e):
    return "put", "a.img", slot, "--first", e.first, "--last", e.last, f"--name={e.name}", "--guid", e.guid, "--type", e.type


def puts(b):
    """Puts at all ends of the table and of the ground, and over a used slot; the bytes are those that a maker of cards writes."""
    for size, blocks in ((512, 128), (4096, 64)):
        first, last = gpt.usable(blocks, size)
        b.store("a.img", gpt.card(blocks, size, fill=0xA5, after=3))
        entries = {}
        for slot, e in ((1, gpt.Entry(first, first + 9, "north ridge", gpt.guid(1))), (128, gpt.Entry(last, last, "end", gpt.guid(128))),
                        (4, gpt.Entry(first + 10, last - 1, "x" * 36, gpt.guid(4), gpt.TYPES["swap"])), (4, gpt.Entry(first + 12, first + 12, "😀" * 18, gpt.guid(4))),
                        (1, gpt.Entry(first, first, 'a "b" \\', gpt.guid(1)))):
            before = entries.get(slot)
            entries[slot] = e
            b.says((*words(slot, e), "-b", size, *(("--replace",) if before else ())), line(slot, e, size, before))
            b.true(f"put {slot}: the bytes", b.bytes("a.img") == gpt.over(gpt.card(blocks, size, fill=0xA5, after=3), size, entries))
    b.store("a.img", gpt.card(128))
    b.says(("put", "a.img", "2", "--first", "40", "--last", "40"), like('slot 2 put: blocks 40 to 40 (512 B), type data, GUID {guid}{..}\n'))
    b.says(("put", "a.img", "3", "--first", "41", "--last", "41"), like('slot 3 put: blocks 41 to 41 (512 B), type data, GUID {guid}{..}\n'))
    made = gpt.slots(b.bytes("a.img"), 512)
    b.equal("puts without a name", [e.name for e in made.values()], ["", ""])
    b.true("each put draws another GUID", len({e.guid for e in made.values()}) == 2, made)


def over(b):
    """A used slot keeps its blocks, or is replaced by --replace alone; what it held is said."""
    other = "21686148-6449-6e6f-744e-656564454649"
    for size, given in ((512, ()), (4096, ("-b", "4096"))):
        for kind in ("data", "linux", other):
            held = gpt.Entry(40, 49, 'last "year"', gpt.guid(1), gpt.TYPES.get(kind, kind))
            image = gpt.card(128, size, {1: held, 2: gpt.Entry(60, 61, "x", gpt.guid(2))})
            for first, last, keeps in ((40, 49, True), (40, 59, True), (40, 48, False), (41, 49, False), (39, 49, False), (39, 60, False), (62, 80, False), (62, 62, False)):
                e = gpt.Entry(first, last, "new", gpt.guid(9))
                b.store("a.img", image)
                if not keeps:
                    b.refuses((*words(1, e), *given), f"card: slot 1 not put: it holds {holding(held, size)}, and would not keep them. Nothing was changed. Say --replace to put it all the same, or next for a slot that is free")
                if last == 60:
                    b.refuses((*words(1, e), *given, "--replace"), 'card: slot 1 not put: blocks 39 to 60 overlap slot 2 "x" (60 to 61). Nothing was changed. [22]')
                    continue
                replace = () if keeps else ("--replace",)
                dry = b.run(*words(1, e), *given, *replace, "--dry-run")
                b.equal("put over a used slot --dry-run: its first line", dry.out.splitlines()[:1], [f"slot 1 holds {holding(held, size)}: it would be replaced"])
                b.says((*words(1, e), *given, *replace), line(1, e, size, held))
                b.true(f"put over a used slot, blocks {first} to {last}: the bytes", b.bytes("a.img") == gpt.card(128, size, {1: e, 2: gpt.Entry(60, 61, "x", gpt.guid(2))}))
    b.store("a.img", gpt.card(128, entries=ONE))
    b.refuses(("put", "a.img", "1", "--size", "1K"), f"card: slot 1 not put: it holds {holding(ONE[1])}, and would not keep them. Nothing was changed. Say --replace to put it all the same, or next for a slot that is free")
    for slot, first in (("next", 66), ("7", 67)):
        e = gpt.Entry(first, first, "n", gpt.guid(first))
        b.says((*words(slot, e), "--replace"), line(2 if slot == "next" else 7, e))


def next_slot(b):
    entries = {s: gpt.Entry(33 + s, 33 + s, f"m{s}", gpt.guid(s)) for s in (1, 2, 4, 128)}
    b.store("a.img", gpt.card(256, entries=entries))
    for slot, block in ((3, 200), (5, 201)):
        entries[slot] = gpt.Entry(block, block, "n", gpt.guid(slot))
        b.says(words("next", entries[slot]), line(slot, entries[slot]))
    b.true("put next: the bytes", b.bytes("a.img") == gpt.card(256, entries=entries))
    full = {s: gpt.Entry(33 + s, 33 + s, f"m{s}", gpt.guid(s)) for s in range(1, 129)}
    b.store("a.img", gpt.card(256, entries=full))
    b.refuses(("put", "a.img", "next", "--first", "200", "--last", "200"), "card: no slot put: all 128 slots are used. Nothing was changed. [33]")
    b.refuses(("put", "a.img", "next", "--size", "512"), "card: no slot put: all 128 slots are used. Nothing was changed. [33]")


def landed(b, what, blocks, size, entries, want, first, last):
    b.store("a.img", gpt.card(blocks, size, entries))
    e = gpt.Entry(first, last, "new", gpt.guid(77))
    b.says(("put", "a.img", "77", "--size", want, "--name", "new", "--guid", gpt.guid(77), "-b", size), line(77, e, size))
    b.true(f"put --size {what}: the bytes", b.bytes("a.img") == gpt.card(blocks, size, {**entries, 77: e}))


def by_size(b):
    """--size: from a multiple of 1 MiB on where a free run has that room, else the lowest run with room at all."""
    landed(b, "on an empty card", 16384, 512, {}, "1M", 2048, 4095)
    landed(b, "at 4096", 2048, 4096, {}, "1M", 256, 511)
    landed(b, "behind a slot", 16384, 512, {1: gpt.Entry(2048, 2048, "", gpt.guid(1))}, "1M", 4096, 6143)
    landed(b, "in the first hole that has the room", 16384, 512, {1: gpt.Entry(4096, 8191, "", gpt.guid(1))}, "1M", 2048, 4095)
    landed(b, "not in a hole that has it only unaligned", 16384, 512, {1: gpt.Entry(4000, 4095, "", gpt.guid(1))}, "1M", 4096, 6143)
    landed(b, "with room to the last usable block", 8192 + 33, 512, {}, "3M", 2048, 8191)
    landed(b, "on a card of no aligned room", 128, 512, {}, "16K", 34, 65)
    landed(b, "with no aligned room left", 8192, 512, {1: gpt.Entry(2048, 8000, "", gpt.guid(1))}, "1007K", 34, 2047)
    landed(b, "in the lowest hole with room at all", 4096, 512, {1: gpt.Entry(40, 99, "", gpt.guid(1)), 2: gpt.Entry(2000, 4000, "", gpt.guid(2))}, "6K", 100, 111)
    landed(b, "of all the ground", 128, 512, {}, 61 * 512, 34, 94)
    b.store("a.img", gpt.card(4096, entries={1: gpt.Entry(2048, 4062, "", gpt.guid(1))}))
    b.refuses(("put", "a.img", "4", "--size", "2M"), "card: slot 4 not put: no free run has 4096 blocks (2 MiB); the largest has 2014 (1007 KiB). Nothing was changed.")
    b.refuses(("put", "a.img", "next", "--size", "2M"), "card: slot 2 not put: no free run has 4096 blocks (2 MiB); the largest has 2014 (1007 KiB). Nothing was changed.")
    b.store("a.img", gpt.card(128, entries={1: gpt.Entry(34, 94, "all", gpt.guid(1))}))
    b.refuses(("put", "a.img", "4", "--size", "1K"), like("card: slot 4 not put: no free run has 2 blocks (1 KiB){..}. Nothing was changed.\n"))


def refusals(b):
    b.store("a.img", gpt.card(128, entries=ONE))

    def no(slot, first, last, number, why, *more):
        b.refuses(("put", "a.img", slot, "--first", first, "--last", last, *more), f"card: slot {slot} not put: {why}. Nothing was changed. [{number}]")

    for slot in (0, 129, 200, 4294967297):
        no(slot, 70, 70, 18, f"there is no slot {slot}: a card has slots 1 to 128")
    no(4, 70, 70, 19, "its type is nil", "--type", "00000000-0000-0000-0000-000000000000")
    no(4, 90, 80, 20, "the last block, 80, comes before the first, 90")
    no(4, 9, 5, 20, "the last block, 5, comes before the first, 9")
    for first, last in ((10, 20), (33, 33), (95, 95), (94, 95), (70, 18446744073709551615), (0, 0)):
        no(4, first, last, 21, f"blocks {first} to {last} are not all usable: those are 34 to 94")
    for first, last in ((34, 34), (65, 66), (40, 50), (34, 94), (65, 65)):
        no(4, first, last, 22, f'blocks {first} to {last} overlap slot 1 "north ridge" (34 to 65)')
    no(4, 70, 71, 25, 'slot 1 "north ridge" has the same partition GUID', "--guid", gpt.guid(1))
    for name, count in (("x" * 37, 37), ("x" * 40, 40), ("😀" * 19, 38), ("é" * 37, 37)):
        b.refuses(("put", "a.img", "4", "--first", "70", "--last", "70", "--name", name), f"card: a name has at most 36 UTF-16 units, not {count}; see: card help put", 2)
    b.refuses(("put", "a.img", "4", "--first", "70", "--last", "18446744073709551616"), like("card: {..}; see: card help put\n"), 2)


def clears(b):
    entries = {1: ONE[1], 4: gpt.Entry(66, 67, "roads", gpt.guid(4)), 128: gpt.Entry(94, 94, "end", gpt.guid(128))}
    for size in (512, 4096):
        image = gpt.card(128, size, entries, fill=0xA5)
        b.store("a.img", image)
        b.says(("clear", "a.img", "1", "-b", size), "slot 1 cleared: its entry is gone from both tables, its bytes (blocks 34 to 65) are still on the card\n")
        rest = {4: entries[4], 128: entries[128]}
        b.true("clear: the bytes", b.bytes("a.img") == gpt.over(image, size, rest))
        b.says(("clear", "a.img", "4", "--wipe", "-b", size), "slot 4 wiped and cleared: zeros in blocks 66 to 67\n")
        image = gpt.stored(gpt.over(image, size, {128: entries[128]}), 66 * size, bytes(2 * size))
        b.true("clear --wipe: the bytes", b.bytes("a.img") == image)
        for words in (("4",), ("4", "--wipe"), ("1",), ("127",)):
            b.says(("clear", "a.img", *words, "-b", size), f"slot {words[0]} was not used\n")
        b.true("clear of an unused slot: the bytes", b.bytes("a.img") == image)
        b.says(("clear", "a.img", "128", "-b", size), "slot 128 cleared: its entry is gone from both tables, its bytes (blocks 94 to 94) are still on the card\n")
        for slot in (0, 129, 200):
            b.refuses(("clear", "a.img", slot, "-b", size), f"card: slot {slot} not cleared: there is no slot {slot}: a card has slots 1 to 128. Nothing was changed. [18]")


def run(b):
    puts(b)
    over(b)
    next_slot(b)
    by_size(b)
    refusals(b)


def run_clear(b):
    clears(b)
