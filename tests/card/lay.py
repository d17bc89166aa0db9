"""lay: new files, files that are there, cards that would lose slots, and files that are too short."""
import os
import resource

import gpt
from bench import like

THREE = {s: gpt.Entry(30 + 10 * s, 35 + 10 * s, f"map {s}", gpt.guid(s)) for s in (1, 2, 3)}


def laid(name, blocks, size, disk=gpt.DISK):
    first, last = gpt.usable(blocks, size)
    return f"card laid: {name}: {blocks} blocks of {size} bytes ({gpt.words(blocks * size)}), GUID {disk}, usable blocks {first} to {last}\n"


def new_files(b):
    b.refuses(("lay", "n.img"), "card: n.img is not there: say how long it should be, as --size 8G; see: card help lay", 2, ())
    b.true("lay without a size makes no file", not os.path.exists(b.path("n.img")))
    for size, blocks in ((512, 68), (512, 131072), (4096, 12), (4096, 2048)):
        b.remove("n.img")
        b.says(("lay", "n.img", "-b", size, "--size", blocks * size, "--guid", gpt.DISK.upper()), laid("n.img", blocks, size))
        b.true(f"lay of {blocks} blocks of {size}: the bytes", b.bytes("n.img") == gpt.card(blocks, size))
    drawn = set()
    for _ in range(3):
        b.remove("n.img")
        done = b.says(("lay", "n.img", "--size", "64K"), like("card laid: n.img: 128 blocks of 512 bytes (64 KiB), GUID {guid}, usable blocks 34 to 94\n"))
        drawn.add(done.out)
        words = done.out.split("GUID ")[-1].split(",")[0]
        b.true("lay with a GUID of its own: the bytes", b.bytes("n.img") == gpt.card(128, disk=words if len(words) == 36 else gpt.DISK))
    b.equal("each lay draws another GUID", len(drawn), 3)


def files_there(b):
    """A file that is there keeps its length, and its bytes outside the tables."""
    for size, blocks, after in ((512, 68, 0), (512, 128, 100), (4096, 12, 511), (4096, 64, 0)):
        b.store("a.img", bytes([0xA5]) * (blocks * size + after))
        b.says(("lay", "a.img", "-b", size, "--guid", gpt.DISK), laid("a.img", blocks, size))
        b.true(f"lay over {blocks} blocks of {size}: the bytes", b.bytes("a.img") == gpt.card(blocks, size, fill=0xA5, after=after))
    b.store("a.img", bytes(65536))
    b.refuses(("lay", "a.img", "--size", "128K"), "card: a.img has 65536 bytes, not the 131072 of --size. Nothing was changed.")
    b.refuses(("lay", "a.img", "--size", "1M", "--force"), "card: a.img has 65536 bytes, not the 1048576 of --size. Nothing was changed.")
    b.says(("lay", "a.img", "--size", "64K", "--guid", gpt.DISK), laid("a.img", 128, 512))
    b.store("e.img", b"")
    b.says(("lay", "e.img", "--size", "64K", "--guid", gpt.DISK), laid("e.img", 128, 512))
    b.true("lay over an empty file: the bytes", b.bytes("e.img") == gpt.card(128))


def used_slots(b):
    """A card with used slots is laid anew by --force alone, whichever table shows them."""
    whole = gpt.card(128, entries=THREE)
    for what, image in (("whole", whole), ("front damaged", gpt.stored(whole, 512, b"X")), ("back damaged", gpt.stored(whole, 127 * 512, b"X"))):
        b.store("a.img", image)
        b.refuses(("lay", "a.img", "--guid", gpt.guid(99)),
                  "card: a.img is a card with 3 used slots, and laying drops them. Nothing was changed. To lay it anew: card lay --force a.img")
        b.says(("lay", "--force", "a.img", "--guid", gpt.guid(99)), laid("a.img", 128, 512, gpt.guid(99)))
        b.true(f"lay --force, {what}: the bytes", b.bytes("a.img") == gpt.over(image, 512, {}, gpt.guid(99)))
        b.says(("lay", "a.img", "--guid", gpt.DISK), laid("a.img", 128, 512))
    b.store("a.img", whole)
    b.refuses(("lay", "a.img", "-b", "4096"), like("card: a.img is a card with blocks of 512 bytes and 3 used slots, and laying drops them. Nothing was changed. To lay it anew: card lay --force -b 4096 a.img\n"))
    b.says(("lay", "a.img", "-b", "4096", "--guid", gpt.DISK, "--force"), laid("a.img", 16, 4096))
    b.store("a.img", gpt.card(128, 4096, {1: gpt.Entry(6, 7, "x", gpt.guid(1))}))
    b.refuses(("lay", "a.img", "-b", "4096"), like("card: a.img is a card with 1 used slot{..}, and laying drops {..}. Nothing was changed. To lay it anew: card lay --force -b 4096 a.img\n"))


def too_short(b):
    for size, least, counts in ((512, 68, ((0, 8), (1, 8), (2, 8), (3, 10), (67, 10))), (4096, 12, ((2, 8), (3, 10), (11, 10)))):
        for blocks, number in counts:
            words = f" not laid: it has {blocks} blocks of {size} bytes, and a card has at least {least}. Nothing was changed. [{number}]\n"
            words = words.replace("has 1 blocks", "has 1 block{..}")
            b.store("a.img", bytes([7]) * (blocks * size + 5))
            b.refuses(("lay", "a.img", "-b", size), like("card: a.img" + words))
            if blocks:
                b.refuses(("lay", "new.img", "-b", size, "--size", blocks * size), like("card: new.img" + words), 1, ())
                b.true("a file that lay made and refused is removed again", not os.path.exists(b.path("new.img")))
    b.refuses(("lay", "new.img", "--size", "0"), "card: new.img not laid: it has 0 blocks of 512 bytes, and a card has at least 68. Nothing was changed. [8]", 1, ())
    b.true("lay --size 0 makes no file", not os.path.exists(b.path("new.img")))
    b.refuses(("lay", "new.img", "--size", "1G"), "card: new.img: File too large", 3, (), restore_signals=False, preexec_fn=lambda: resource.setrlimit(resource.RLIMIT_FSIZE, (1 << 20, 1 << 20)))
    b.true("lay of a file that is too long for the disk makes no file", not os.path.exists(b.path("new.img")))
    b.store("e.img", b"")
    b.refuses(("lay", "e.img", "--size", "1K"), "card: e.img not laid: it has 2 blocks of 512 bytes, and a card has at least 68. Nothing was changed. [8]", files=("e.img",))
    b.refuses(("lay", "e.img"), "card: e.img not laid: it has 0 blocks of 512 bytes, and a card has at least 68. Nothing was changed. [8]", files=("e.img",))


def run(b):
    new_files(b)
    files_there(b)
    used_slots(b)
    too_short(b)
