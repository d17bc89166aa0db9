"""Cases with known answers of document 02, 13/13: a label's bytes, reading and writing one, and the screen set. They are asked over windows too, with
the labels that the image has."""

import struct

from known_copies import SIZES, at, card, damages, filled, first_usable, room
from labels import Label
from units import NOWHERE

# 2024 is 07E8 hexadecimal, 4711 is 1267, 772 is 0304.
MAY = Label(2024, 5, 17, 772, 4711)
MAY_BYTES = bytes.fromhex("46424D 0100 E807 05 11 0403 6712")
ZERO = Label(0, 0, 0, 0, 0)
BAD_SIZES = (0, 511, 513, 4097, 2**32 + 512, 2**64 - 1)
NO_SLOTS = (0, 129, 258, 65538, 2**31 + 2, 2**32 - 1)


def raw(mark=b"FBM", version=1, year=2024, month=5, day=17, style=772, sheet=4711):
    """A label's 13 bytes, each of which can be odd."""
    return mark + struct.pack("<HHBBHH", version, year, month, day, style, sheet)


def slots_of(*listed):
    """A lent list of slots."""
    return struct.pack(f"<{len(listed)}I", *listed)


def maps(calls, b):
    """A card with slots 2, 3, 5 and 128 on blocks 0, 1, 2 and 4 to 5 of the usable ones."""
    return card(calls, b, {2: at(2, b, 0), 3: at(3, b, 1), 5: at(5, b, 2), 128: at(128, b, 4, 2)}, odd=1)


def labelled(image, b, labels):
    """That card with these bytes at the start of its slots' partitions."""
    for slot, data in labels.items():
        start = (first_usable(b) + {2: 0, 3: 1, 5: 2, 128: 4}[slot]) * b
        image = image[:start] + data + image[start + len(data) :]
    return image


def good_labels():
    """Labels and their bytes, at the edges of each number."""
    yield MAY, MAY_BYTES
    yield Label(0, 1, 1, 0, 0), raw(year=0, month=1, day=1, style=0, sheet=0)
    yield Label(65535, 12, 31, 65535, 65535), b"FBM\1\0\xff\xff\x0c\x1f\xff\xff\xff\xff"
    yield Label(0x0102, 3, 4, 0x0506, 0x0708), b"FBM\1\0\x02\x01\x03\x04\x06\x05\x08\x07"
    for month in range(1, 13):
        for day in (1, 28, 29, 30, 31):
            yield MAY._replace(month=month, day=day), MAY_BYTES[:7] + bytes([month, day]) + MAY_BYTES[9:]


def no_dates():
    """Months and days that are none, alone and together."""
    return [(month, day) for month in (0, 1, 12, 13, 255) for day in (0, 1, 31, 32, 255) if not (1 <= month <= 12 and 1 <= day <= 31)]


def write_cases(calls):
    """Writing stores 13 bytes at the partition's start and nothing else; reading gives them back; a label written twice is as one written once."""
    yield "the label's bytes", raw(), MAY_BYTES
    for b in SIZES:
        image = maps(calls, b)
        for slot, block in ((2, 0), (128, 4)):
            start = (first_usable(b) + block) * b
            for label, data in good_labels():
                now = image[:start] + data + image[start + 13 :]
                name = f"{label} in slot {slot}, {b}"
                yield f"{name}, written", calls["card_write_label"](image, b, slot, label), (0, (0,), (now,), NOWHERE)
                yield f"{name}, again", calls["card_write_label"](now, b, slot, label)[2], (now,)
                yield f"{name}, read", calls["card_read_label"](now, b, slot), (0, (label,), (now,), NOWHERE)
                yield f"{name}, as payload", calls["card_write_payload"](image, b, slot, 0, data)[2][0], now
        for month, day in no_dates():
            label = MAY._replace(month=month, day=day)
            yield f"writing {month} {day}", calls["card_write_label"](image, b, 2, label), (36, (0,), (image,), NOWHERE)


def odd_labels():
    """Bytes that are no label, and the number of each; what comes first decides if several things are odd."""
    for mark in (b"\0\0\0", b"fBM", b"FbM", b"FBm", b"FBN", b"FBL", b"GBM", b"MBF", b"\xff\xff\xff"):
        yield 34, raw(mark=mark)
        yield 34, raw(mark=mark, version=2, month=0)
    for version in (0, 2, 255, 256, 257, 0x8001, 65535):
        yield 35, raw(version=version)
        yield 35, raw(version=version, day=0)
    for month, day in no_dates():
        yield 36, raw(month=month, day=day)


def read_cases(calls):
    """Reading: 18, 23, 34, 35, 36; the rest of the partition and the other slots' labels are not looked at."""
    for b in SIZES:
        bare = maps(calls, b)
        for number, data in odd_labels():
            image = labelled(bare, b, {2: data, 3: MAY_BYTES, 128: MAY_BYTES + filled(200)})
            yield f"{data.hex()}, {b}", calls["card_read_label"](image, b, 2), (number, (ZERO,), (image,), NOWHERE)
            yield f"{data.hex()} beside, {b}", calls["card_read_label"](image, b, 128), (0, (MAY,), (image,), NOWHERE)
        image = bare
        for call, rest, zero in (("card_read_label", (), (ZERO,)), ("card_write_label", (MAY,), (0,)), ("card_write_label", (ZERO,), (0,))):
            for slot in NO_SLOTS:
                yield f"{call} of {slot}, {b}", calls[call](image, b, slot, *rest), (18, zero, (image,), NOWHERE)
            for slot in (1, 4, 127):
                yield f"{call} of {slot}, {b}", calls[call](image, b, slot, *rest), (23, zero, (image,), NOWHERE)
        smallest = card(calls, b, {7: at(7, b, 0)}, free=1)
        written = calls["card_write_label"](smallest, b, 7, MAY)
        yield f"one block of {b}", (written[0], calls["card_read_label"](written[2][0], b, 7)[1]), (0, (MAY,))


def sets():
    """Labels of slots, lists and what is due: number, slot, and the date and revision of an accepted set. Slots 1 and 4 are not used."""
    june, style, sheet = raw(month=6), raw(style=773), raw(sheet=9)
    good = {2: MAY_BYTES, 3: sheet, 5: MAY_BYTES, 128: sheet}
    date = (2024, 5, 17, 772)
    for listed in ((2,), (128,), (2, 3), (3, 2), (128, 5, 3, 2), (2, 2), (5, 5, 5), (2, 3, 2, 3), (2,) * 300, (3, 128) * 100):
        yield good, listed, 0, 0, date
    yield {2: raw(year=0, month=2, day=31, style=0)}, (2, 2), 0, 0, (0, 2, 31, 0)
    yield {2: raw(year=65535, month=12, day=31, style=65535), 3: b"FBM\1\0\xff\xff\x0c\x1f\xff\xff\0\0"}, (3, 2), 0, 0, (65535, 12, 31, 65535)
    for slot in NO_SLOTS:
        for listed in ((slot,), (2, slot), (slot, 2), (2, 2, 3, slot, 1), (slot, slot)):
            yield good, listed, 18, slot, None
    for listed in ((1,), (2, 1), (2, 2, 1, 0), (1, 0), (4, 1)):
        yield good, listed, 23, next(slot for slot in listed if slot in (1, 4)), None
    for number, data in odd_labels():
        for listed in ((5,), (5, 0), (5, 1), (2, 5), (2, 5, 0), (2, 3, 5, 5, 1), (5, 2)):
            yield good | {5: data}, listed, number, 5, None
    for other in (june, style, raw(day=18), raw(year=2025), raw(year=2024 ^ 256), raw(style=772 ^ 256), raw(month=6, style=9), raw(day=5, month=6)):
        for listed in ((2, 5), (2, 5, 0), (2, 3, 5, 1), (2, 2, 5, 5), (2, 3, 5, 2)):
            yield good | {5: other}, listed, 37, 5, None
        yield good | {5: other}, (5, 2, 3), 37, 2, None
        yield good | {5: other}, (5, 5, 128, 0), 37, 128, None
    yield good | {3: june, 5: june}, (2, 3, 5), 37, 3, None
    yield good | {3: june, 5: raw(mark=b"map")}, (2, 5, 3), 34, 5, None
    yield good | {3: june, 5: raw(mark=b"map")}, (2, 3, 5), 37, 3, None
    yield good | {3: raw(version=2), 5: raw(month=13)}, (5, 3), 36, 5, None
    yield good | {3: raw(version=2), 5: raw(month=13)}, (2, 3, 5), 35, 3, None
    yield good | {3: raw(month=0, style=9)}, (2, 3), 36, 3, None
    yield good, (2, 1, 0), 23, 1, None
    yield good, (2, 0, 1), 18, 0, None


def judge_cases(calls):
    """The screen set, slot by slot in the list's order; a refused one has no date, and the slot as the list has it."""
    for b in SIZES:
        bare = maps(calls, b)
        for held, listed, number, slot, date in sets():
            image = labelled(bare, b, held)
            due = (number, (slot, *(date or (0, 0, 0, 0))), (image, slots_of(*listed)), NOWHERE)
            yield f"{listed!r:.40}, {number} of {slot}, {b}", calls["card_judge"](image, b, slots_of(*listed)), due
        full = calls["card_lay"](filled(room(b) + 127 * b), b, at(0, b, 0).part_guid)[2][0]
        for slot in range(1, 129):
            full = calls["card_put"](full, b, slot, at(slot, b, 128 - slot))[2][0]
            full = calls["card_write_label"](full, b, slot, MAY._replace(sheet=slot))[2][0]
        every = slots_of(*range(1, 129))
        yield f"all 128 slots of {b}", calls["card_judge"](full, b, every), (0, (0, 2024, 5, 17, 772), (full, every), NOWHERE)
        other = calls["card_write_label"](full, b, 128, MAY._replace(day=18))[2][0]
        yield f"the last of 128 differs, {b}", calls["card_judge"](other, b, every)[:2], (37, (128, 0, 0, 0, 0))


def order_cases(calls):
    """1, then 38 of an empty list, then the card check's with their places, then the slots."""
    for b in SIZES:
        good = labelled(maps(calls, b), b, {2: MAY_BYTES, 3: MAY_BYTES})
        nothing = (0, 0, 0, 0, 0)
        images = {f"{name}, back {back}": spoil(good, back) for name, spoil in damages(b).items() for back in (0, 1)}
        images |= {"good": good, "no bytes": b"", "8": filled(3 * b - 1), "10": filled(room(b) - 1), "zeros": bytes(room(b))}
        for name, image in images.items():
            number, _, _, where = calls["card_check"](image, b)
            for bad in BAD_SIZES:
                yield f"{name}, block size {bad}", calls["card_judge"](image, bad, b""), (1, nothing, (image, b""), NOWHERE)
                yield f"{name}, block size {bad}, read", calls["card_read_label"](image, bad, 0), (1, (ZERO,), (image,), NOWHERE)
                yield f"{name}, block size {bad}, write", calls["card_write_label"](image, bad, 0, ZERO), (1, (0,), (image,), NOWHERE)
            yield f"{name}, an empty list, {b}", calls["card_judge"](image, b, b""), (38, nothing, (image, b""), NOWHERE)
            if number:
                listed = slots_of(0, 2)
                yield f"{name}, judged, {b}", calls["card_judge"](image, b, listed), (number, nothing, (image, listed), where)
                yield f"{name}, read, {b}", calls["card_read_label"](image, b, 0), (number, (ZERO,), (image,), where)
                yield f"{name}, written, {b}", calls["card_write_label"](image, b, 0, ZERO), (number, (0,), (image,), where)


GROUPS = (write_cases, read_cases, judge_cases, order_cases)
