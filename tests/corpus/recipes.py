"""The images of the corpus, by name: RECIPES has a function for each image that is made here, from UEFI's tables alone (tests/example/make_card.py); the cards that other makers' tools wrote stand in makers/ as text.

A recipe is read beside its line of index.tsv, which says what the image is. A text of makers/ has a line `length L` and then lines `PLACE: BYTES` in hexadecimal; all else is zero.
"""
import pathlib
import struct
import sys
import zlib

HERE = pathlib.Path(__file__).resolve().parent
sys.path.insert(1, str(HERE.parent / "example"))
from make_card import card, entry, guid, header, other_card, protective_mbr, wide_header  # noqa: E402

ARRAY = 16384
EMPTY = bytes(128)
MOST = 2**64 - 1
FIELDS = {"revision": (8, "<I"), "stated": (12, "<I"), "reserved": (20, "<I"), "own": (24, "<Q"), "other": (32, "<Q"), "first": (40, "<Q"), "last": (48, "<Q"), "start": (72, "<Q"), "count": (80, "<I"), "each": (84, "<I")}


def at_slots(slots):
    """The entries of an array, up to the highest of these slots."""
    return [slots.get(slot, EMPTY) for slot in range(1, max(slots, default=0) + 1)]


def whole(slots, blocks=68, size=512, **more):
    return card(blocks, size, at_slots(slots), **more)


ONE = {1: entry(1, 34, 34, "map")}
THREE = {1: entry(1, 34, 40, "north ridge"), 2: entry(2, 41, 45, "south slope"), 128: entry(3, 50, 60, "west")}


def small(size):
    """A card of either block size with slot 1 on its first usable block."""
    return whole({1: entry(1, ARRAY // size + 2, ARRAY // size + 2, "map")}, ARRAY // size * 2 + 8, size)


def over(image, place, data):
    return image[:place] + data + image[place + len(data):]


def flipped(image, place):
    return over(image, place, bytes([image[place] ^ 1]))


def place_of(image, size, back):
    """The byte of a table's header."""
    return (len(image) // size - 1) * size if back else size


def summed(image, place, length=92):
    """A header with a right sum of its own."""
    zeroed = over(image, place + 16, bytes(4))
    return over(image, place + 16, struct.pack("<I", zlib.crc32(zeroed[place:place + length])))


def forged(image, size=512, back=False, length=92, **fields):
    """A header with other numbers, and a right sum."""
    place = place_of(image, size, back)
    for name, value in fields.items():
        at, form = FIELDS[name]
        image = over(image, place + at, struct.pack(form, value))
    return summed(image, place, length)


def entries_in(image, slots, size=512, tables=(False, True)):
    """Entries written into one array or both, with right sums."""
    for back in tables:
        place = place_of(image, size, back)
        start = place - ARRAY if back else 2 * size
        for slot, raw in slots.items():
            image = over(image, start + 128 * (slot - 1), raw)
        image = over(image, place + 88, struct.pack("<I", zlib.crc32(image[start:start + ARRAY])))
        image = summed(image, place)
    return image


def mixed(before, after, size, *blocks):
    """An image with some blocks of another."""
    for block in blocks:
        block %= len(before) // size
        before = over(before, block * size, after[block * size:(block + 1) * size])
    return before


def update(before, after, slot, size, stages):
    """A put or a clear that is cut after some of its stages: back array, back header, front array, front header."""
    inside, per = 128 * (slot - 1) // size, ARRAY // size
    return mixed(before, after, size, *[(-1 - per + inside), -1, 2 + inside, 1][:stages])


def repair(good, hurt, size, stages, back):
    """A repair that is cut: zeros in the header, the array's blocks ascending, the header."""
    place, per = place_of(good, size, back), ARRAY // size
    first = len(good) // size - 1 - per if back else 2
    hurt = mixed(over(hurt, place, bytes(size)), good, size, *range(first, first + min(stages - 1, per)))
    return mixed(hurt, good, size, place // size) if stages == per + 2 else hurt


def labelled(labels, slots=THREE, blocks=128):
    """A card whose maps begin with these bytes."""
    image = whole(slots, blocks)
    for slot, label in labels.items():
        image = over(image, struct.unpack_from("<Q", slots[slot], 32)[0] * 512, label)
    return image


def label(year=2026, month=7, day=14, style=3, sheet=1, version=1, mark=b"FBM"):
    return mark + struct.pack("<HHBBHH", version, year, month, day, style, sheet)


def raw_entry(kind=None, own=None, first=34, last=34, flags=0, name=b""):
    """An entry of any bytes."""
    plain = entry(7, first, last, "", flags)
    return (plain[:16] if kind is None else kind) + (plain[16:32] if own is None else own) + plain[32:56] + name.ljust(72, b"\0")


def other(stated=92, each=128, count=128, slots=None, blocks=128, size=512, **more):
    """Another maker's card with three slots."""
    per = -(-each * count // size)
    first = 2 + per
    slots = slots or {1: entry(1, first, first + 3, "north"), 3: entry(3, first + 4, first + 5, "south").ljust(each, b"\xa5"), count: entry(9, first + 6, first + 6, "last")}
    return other_card(blocks, size, slots, each, count, stated=stated, **more)


BASE = whole(THREE, 128)
MORE = whole(THREE | {60: entry(60, 70, 80, "sheet 60")}, 128)
LESS = whole({slot: raw for slot, raw in THREE.items() if slot != 2}, 128)
WIDE = whole({1: entry(1, 6, 8, "north ridge")}, 24, 4096)
WIDER = whole({1: entry(1, 6, 8, "north ridge"), 60: entry(60, 12, 13, "sheet 60")}, 24, 4096)
LAST_YEAR = whole({1: entry(71, 34, 90, "last year")}, 256)
TWIN = {1: entry(1, 34, 40, "a"), 2: entry(1, 41, 45, "b")}
DATES = {1: label(), 2: label(sheet=2), 128: label(sheet=3)}


def lengths():
    yield from ((f"zeros-{n}", lambda n=n: bytes(n)) for n in (0, 1, 511, 512, 1535, 1536))
    yield "zeros-67-blocks", lambda: bytes(67 * 512)
    yield "zeros-68-blocks", lambda: bytes(68 * 512)
    yield "zeros-11-blocks-4096", lambda: bytes(11 * 4096)
    yield "ones-68-blocks", lambda: b"\xff" * (68 * 512)
    yield "header-alone-604", lambda: whole(ONE)[:604]
    yield "header-alone-603", lambda: whole(ONE)[:603]
    yield "card-67-blocks", lambda: whole(ONE)[:67 * 512]
    yield "two-blocks", lambda: protective_mbr(1) + header(1, 1, 0, 0, guid(0), 2, b"").ljust(512, b"\0")


def wholes():
    yield "smallest-512", lambda: whole(ONE)
    yield "smallest-empty-512", lambda: whole({})
    yield "smallest-4096", lambda: whole({1: entry(1, 6, 6, "map")}, 12, 4096)
    yield "smallest-odd-bytes", lambda: whole(ONE, after=511)
    yield "smallest-4096-odd-bytes", lambda: whole({1: entry(1, 6, 6, "map")}, 12, 4096, after=4095)
    yield "three-slots", lambda: BASE
    yield "all-128-slots", lambda: whole({slot: entry(slot, 33 + slot, 33 + slot, f"map {slot}") for slot in range(1, 129)}, 195)
    yield "name-36-units", lambda: whole({1: entry(1, 34, 34, "A" * 36)})
    yield "name-lone-surrogates", lambda: whole({1: entry(1, 34, 34, "\ud83dA\ude00")}, 70)
    yield "name-pair-cut", lambda: whole({1: entry(1, 34, 34, "A" * 35 + "\ud83d")}, 70)
    yield "name-behind-zero", lambda: whole({1: raw_entry(name=b"A\0\0\0B\0")})
    yield "flags-all", lambda: whole({1: entry(1, 34, 34, "map", MOST)})
    yield "byte-after-92", lambda: over(whole(ONE), 604, b"\1")
    yield "block-0-zeroed", lambda: bytes(512) + whole(ONE)[512:]
    yield "boot-code", lambda: over(whole(ONE), 0, b"\xeb\x63\x90" * 146)
    yield "payload-like-a-header", lambda: over(BASE, 34 * 512, BASE[512:1024])


def hurt():
    for back, side in ((False, "front"), (True, "back")):
        at = place_of(BASE, 512, back)
        start = at - ARRAY if back else 1024
        yield f"{side}-signature", lambda at=at: flipped(BASE, at)
        yield f"{side}-sum", lambda at=at: flipped(BASE, at + 16)
        yield f"{side}-array", lambda start=start: flipped(BASE, start + 60)
        yield f"{side}-array-last-byte", lambda start=start: flipped(BASE, start + ARRAY - 1)
        yield f"{side}-header-zeroed", lambda at=at: over(BASE, at, bytes(512))
        yield f"{side}-far-last", lambda back=back: forged(BASE, back=back, last=126)
        yield f"{side}-size-96", lambda back=back: forged(BASE, back=back, stated=96)
        yield f"{side}-size-wild", lambda back=back: forged(BASE, back=back, stated=2**32 - 1)
        yield f"{side}-own-7", lambda back=back: forged(BASE, back=back, own=7)
    yield "both-headers-zeroed", lambda: over(over(BASE, 512, bytes(512)), 127 * 512, bytes(512))
    yield "front-sum-back-array", lambda: flipped(flipped(BASE, 528), 95 * 512)


def forgeries():
    wild = {"first-33": {"first": 33}, "last-33": {"last": 33}, "last-0": {"last": 0}, "other-5": {"other": 5}, "revision-2": {"revision": 0x20000}, "reserved-1": {"reserved": 1}, "size-0": {"stated": 0}, "size-91": {"stated": 91},
            "count-0": {"count": 0}, "count-127": {"count": 127}, "count-129": {"count": 129}, "count-most": {"count": 2**32 - 1}, "each-0": {"each": 0}, "each-127": {"each": 127}, "each-256": {"each": 256},
            "each-384": {"each": 384}, "each-most": {"each": 2**32 - 1}, "start-past-64-bits": {"start": 2**55}, "start-most": {"start": MOST}, "start-past-the-end": {"start": 128}, "product-past-64-bits": {"count": 2**32 - 1, "each": 4096, "start": 2**40}}
    for name, fields in wild.items():
        yield f"forged-{name}", lambda fields=fields: forged(BASE, **fields)


def wrong_entries():
    yield "entry-nil-type", lambda: entries_in(BASE, {5: EMPTY[:127] + b"\1"})
    yield "entry-backwards", lambda: entries_in(BASE, {5: raw_entry(first=70, last=69)})
    yield "entry-before-usable", lambda: entries_in(BASE, {5: raw_entry(first=33, last=33)})
    yield "entry-on-the-back-table", lambda: entries_in(BASE, {5: raw_entry(first=70, last=95)})
    yield "entry-whole-disk", lambda: entries_in(whole({}), {128: raw_entry(first=0, last=MOST)})
    yield "entry-shared-block", lambda: entries_in(BASE, {5: raw_entry(first=60, last=60)})
    yield "entry-shared-block-highest", lambda: entries_in(BASE, {127: raw_entry(first=60, last=61)})
    yield "twins", lambda: whole(TWIN, 128)
    yield "twins-highest", lambda: whole({127: entry(1, 34, 40, "a"), 128: entry(1, 41, 45, "b")}, 128)
    yield "twins-first-and-last", lambda: whole({1: entry(1, 34, 40, "a"), 128: entry(1, 41, 45, "b")}, 128)
    yield "twins-nil", lambda: whole({1: raw_entry(own=bytes(16)), 2: raw_entry(own=bytes(16), first=35, last=35)}, 70)
    yield "entry-wrong-in-front-alone", lambda: entries_in(BASE, {5: raw_entry(first=33, last=33)}, tables=(False,))
    yield "entry-wrong-in-back-alone", lambda: entries_in(BASE, {5: raw_entry(first=33, last=33)}, tables=(True,))
    yield "slot-128-differs", lambda: entries_in(BASE, {128: entry(3, 50, 61, "west")}, tables=(True,))
    yield "slot-1-and-2-differ", lambda: entries_in(BASE, {1: EMPTY, 2: EMPTY}, tables=(True,))
    yield "bytes-behind-a-name-differ", lambda: entries_in(BASE, {1: over(THREE[1], 126, b"Z")}, tables=(True,))
    yield "disk-guids-differ", lambda: summed(over(BASE, 127 * 512 + 56, guid(99)), 127 * 512)
    yield "disk-guids-and-slots-differ", lambda: entries_in(summed(over(BASE, 127 * 512 + 56, guid(99)), 127 * 512), {2: EMPTY}, tables=(True,))


def cuts():
    for stage in range(1, 5):
        yield f"put-cut-{stage}", lambda stage=stage: update(BASE, MORE, 60, 512, stage)
        yield f"put-cut-{stage}-4096", lambda stage=stage: update(WIDE, WIDER, 60, 4096, stage)
        yield f"clear-cut-{stage}", lambda stage=stage: update(BASE, LESS, 2, 512, stage)
    for stage in (1, 2, 17, 33, 34):
        yield f"repair-front-cut-{stage}", lambda stage=stage: repair(MORE, flipped(MORE, 512), 512, stage, False)
        yield f"repair-back-cut-{stage}", lambda stage=stage: repair(MORE, update(MORE, BASE, 60, 512, 1), 512, stage, True)
    yield "put-kept-1-and-3", lambda: mixed(BASE, MORE, 512, -1 - 32 + 14, 2 + 14)
    yield "put-kept-2-and-4", lambda: mixed(BASE, MORE, 512, -1, 1)
    yield "front-first-cut-2", lambda: mixed(BASE, MORE, 512, 2 + 14, 1)


def moved():
    yield "grown", lambda: BASE + bytes(128 * 512)
    yield "grown-by-a-block", lambda: BASE + bytes(512)
    yield "shrunk-by-a-block", lambda: BASE[:-512]
    yield "older-back-table", lambda: BASE + LAST_YEAR[len(BASE):]
    yield "pulled-and-longer", lambda: update(BASE, MORE, 60, 512, 3) + bytes(128 * 512)
    yield "other-block-size", lambda: WIDE
    yield "two-cards", lambda: mixed(BASE, summed(over(LESS, 127 * 512 + 56, guid(99)), 127 * 512), 512, *range(95, 128))


def others():
    for stated in (92, 96, 128, 511, 512, 513, 91, 0):
        yield f"other-header-{stated}", lambda stated=stated: other(stated, inside=b"another maker"[:max(stated - 92, 0)])
    yield "other-header-4096", lambda: other(4096, blocks=24, size=4096)
    for each in (256, 512, 1024, 2048, 4096):
        yield f"other-entries-{each}", lambda each=each: other(each=each, count=ARRAY // each)
    for count in (1, 4, 64, 256):
        yield f"other-count-{count}", lambda count=count: other(count=count, blocks=256)
    yield "other-entries-384", lambda: other(each=384, count=16)
    yield "other-entries-8192", lambda: other(each=8192, count=2)
    yield "other-wrong-place", lambda: other(96, off=1)
    yield "other-dirty-block", lambda: over(other(96), 512 + 96, b"\1")
    yield "other-nil-type", lambda: other(96, slots={1: entry(1, 34, 40, "a"), 2: bytes(16) + entry(2, 41, 42, "gone")[16:]})
    yield "other-no-entries", lambda: over(bytes(8 * 512), 512, wide_header(1, 7, (2, 6), 2, b"", 128))
    yield "other-array-at-header", lambda: forged(other(96), length=96, start=1)


def labels():
    yield "dates-one", lambda: labelled(DATES)
    yield "dates-two", lambda: labelled(DATES | {128: label(day=15)})
    yield "dates-two-styles", lambda: labelled(DATES | {2: label(style=4)})
    yield "label-no-mark", lambda: labelled(DATES | {2: label(mark=b"FBN")})
    yield "label-version-2", lambda: labelled(DATES | {2: label(version=2)})
    yield "label-month-13", lambda: labelled(DATES | {2: label(month=13)})
    yield "label-day-0", lambda: labelled(DATES | {2: label(day=0)})
    yield "label-31-february", lambda: labelled({slot: label(month=2, day=31) for slot in THREE})
    yield "label-on-a-cut-card", lambda: update(labelled(DATES), MORE, 60, 512, 2)


RECIPES = {name: make for part in (lengths, wholes, hurt, forgeries, wrong_entries, cuts, moved, others, labels) for name, make in part()}


def from_text(text):
    """An image from its text."""
    lines = [line for line in text.splitlines() if line and not line.startswith("#")]
    image = bytearray(int(lines[0].removeprefix("length ")))
    for line in lines[1:]:
        place, data = line.split(": ")
        data = bytes.fromhex(data)
        if int(place) + len(data) > len(image):
            raise ValueError(f"bytes after the end: {line}")
        image[int(place):int(place) + len(data)] = data
    return bytes(image)


def to_text(image):
    """The text of an image: rows of 16 bytes that are not all zero, joined where they follow each other, up to 128 bytes a line."""
    lines, start = [f"length {len(image)}"], None
    for place in [at for at in range(0, len(image), 16) if any(image[at:at + 16])] + [None]:
        if start is not None and (place != end or end - start >= 128):
            lines.append(f"{start}: {image[start:end].rstrip(bytes(1)).hex()}")
            start = None
        if place is not None:
            start, end = place if start is None else start, place + 16
    return "\n".join(lines) + "\n"


def image_of(name):
    """An image of the corpus."""
    return RECIPES[name]() if name in RECIPES else from_text((HERE / "makers" / f"{name}.img.txt").read_text())


def names():
    return [*RECIPES, *sorted(path.name.removesuffix(".img.txt") for path in (HERE / "makers").glob("*.img.txt"))]
