"""grow: a card in a file that became longer."""
import gpt
from bench import like
from check import damaged

ENTRIES = {1: gpt.Entry(34, 37, "map", gpt.guid(1)), 6: gpt.Entry(60, 94, "roads", gpt.guid(6)), 128: gpt.Entry(40, 41, "end", gpt.guid(128))}


def listed(b, size=512):
    return gpt.listed(b.run("list", "a.img", "-b", size).out.splitlines())


def grown(b):
    for size, new, after in ((512, 256, 0), (512, 129, 0), (512, 4096, 100), (4096, 256, 0), (4096, 133, 4095)):
        image = gpt.card(128, size, ENTRIES, fill=0xA5) + bytes((new - 128) * size + after)
        b.store("a.img", image)
        b.says(("grow", "a.img", "-b", size), f"card grown from 128 to {new} blocks of {size} bytes ({gpt.words(new * size)}): 3 slots stay as they were\n")
        came, first = b.bytes("a.img"), gpt.usable(128, size)
        for place, data in gpt.tables(new, size, ENTRIES).items():
            b.true(f"grow to {new} blocks of {size}: the bytes at {place}", came[place:place + len(data)] == data)
        b.true(f"grow to {new} blocks of {size}: the usable blocks of before keep their bytes", came[first[0] * size:(first[1] + 1) * size] == image[first[0] * size:(first[1] + 1) * size])
        b.equal("and list", listed(b, size), [gpt.row(s, e, size) for s, e in ENTRIES.items()])
        b.says(("grow", "a.img", "-b", size), f"nothing to grow: the card has all {new} blocks of the file\n")
        b.true("nothing to grow: the bytes", b.bytes("a.img") == came)
        b.equal("a put in the new ground", b.run("put", "a.img", "2", "--first", new - 16384 // size - 2, "--last", new - 16384 // size - 2, "-b", size).status, 0 if new > 129 else None)


def front_alone(b):
    """The front table for the shorter length is enough, whatever became of the old back."""
    for number in (4, 5, 6, 16):
        b.store("a.img", damaged(gpt.card(128, entries=ENTRIES), 512, False, number) + bytes(64 * 512))
        b.says(("grow", "a.img"), "card grown from 128 to 192 blocks of 512 bytes (96 KiB): 3 slots stay as they were\n")
        b.equal(f"grow of a card whose old back is {number}: list", listed(b), [gpt.row(s, e, 512) for s, e in ENTRIES.items()])


def refused(b):
    b.store("a.img", gpt.card(128, entries=ENTRIES))
    b.says(("grow", "a.img"), "nothing to grow: the card has all 128 blocks of the file\n")
    longer = bytes(64 * 512)
    for what, image in (("zeros", bytes(65536)), ("random bytes", b.rng.randbytes(65536)), ("a damaged front", damaged(gpt.card(128, entries=ENTRIES), 512, True, 5) + longer),
                        ("a damaged array", damaged(gpt.card(128, entries=ENTRIES), 512, True, 6) + longer), ("a card that was cut", gpt.card(128, entries=ENTRIES)[:100 * 512])):
        b.store("a.img", image)
        b.refuses(("grow", "a.img"), like("card: a.img{..} Nothing was changed.{..}\n"))


def run(b):
    grown(b)
    front_alone(b)
    refused(b)
