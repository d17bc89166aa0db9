"""Damage to images, as lists of steps: bits, header fields, GUIDs, entries, lengths; with the check sums repaired or not."""

import struct

import images
from entries import record_bytes
from units import NIL, guid_bytes

SIDES = (("front",), ("back",), ("front", "back"))


def seal(draw, b, sides, percent=70):
    """Repairs of the sums of some tables, mostly of all of them, at times of the headers alone or of none."""
    if not draw.chance(percent):
        return []
    with_array = draw.chance(85)
    return [("seal", b, side == "front", with_array) for side in sides]


def in_arrays(card, sides, slot, place, data):
    """Stores of bytes at a place of a slot's entry, in the arrays of these sides."""
    arrays = {"front": card.front_array, "back": card.back_array}
    return [("store", arrays[side] + 128 * (slot - 1) + place, data) for side in sides]


def bit(draw, image, b):
    """One bit somewhere, with a taste for headers and arrays."""
    card = images.places(len(image), b)
    if not image:
        return []
    regions = [(0, len(image))]
    if card:
        regions += [(card.front, 92), (card.back, 92), (card.front, b), (card.back, b), (card.front_array, 16384), (card.back_array, 16384)]
        regions += [(place + 128 * (slot - 1), 128) for slot in images.used_blocks(image, b) for place in card[2:4]]
    place, length = draw.pick(regions)
    return [("flip", place + draw.below(length), draw.below(8))] + seal(draw, b, draw.pick(SIDES), 40)


def field(draw, image, b):
    """One field of one or both headers, set to an edge or to a neighbour of what it was."""
    card = images.places(len(image), b)
    if not card:
        return []
    sides = draw.pick(SIDES)
    place, width = images.FIELDS[draw.pick(list(images.FIELDS))]
    steps = []
    for side in sides:
        header = card.front if side == "front" else card.back
        was = int.from_bytes(image[header + place : header + place + width], "little")
        now = draw.number(8 * width, [was, was + 1, len(image) // b])
        steps.append(("store", header + place, now.to_bytes(width, "little")))
    if place in (16, 88):
        return steps + ([("seal", b, side == "front", False) for side in sides] if place == 88 else [])
    return steps + seal(draw, b, sides)


def signature(draw, image, b):
    """A byte of EFI PART in one header; the sum is repaired at times, which must not help."""
    card = images.places(len(image), b)
    if not card:
        return []
    side = draw.pick(("front", "back"))
    place = (card.front if side == "front" else card.back) + draw.below(8)
    return [("flip", place, draw.below(8))] + seal(draw, b, (side,))


def after_header(draw, image, b):
    """Bytes after the header's 92 in its block, which no sum covers."""
    card = images.places(len(image), b)
    if not card:
        return []
    return [("store", draw.pick((card.front, card.back)) + draw.pick((92, 93, b - 1)), draw.data(1))]


def length(draw, image, b):
    """Another length: one byte or one block more or less, or any."""
    change = draw.pick((-b, -1, 1, b - 1, b, -len(image) // 2))
    return [("resize", max(len(image) + change, 0))]


def swap(draw, image, b):
    """One header block or array copied over the other."""
    card = images.places(len(image), b)
    if not card:
        return []
    source, target, size = draw.pick(
        (
            (card.front, card.back, b),
            (card.back, card.front, b),
            (card.front_array, card.back_array, 16384),
            (card.back_array, card.front_array, 16384),
            (card.front_array + 128, card.front_array, 128),
        )
    )
    return [("store", target, image[source : source + size])] + seal(draw, b, draw.pick(SIDES), 50)


def odd_entry(draw, image, b, card):
    """The 128 bytes of an entry that is odd in one way, and lies in the usable blocks otherwise."""
    used = images.used_blocks(image, b)
    free = images.free_blocks(image, b) or [card.first_usable]
    low, high = card.first_usable, card.last_usable
    here = draw.pick(free)
    record = draw.record()._replace(first_lba=here, last_lba=here, reserved=draw.pick((0, 0, 1, 2**45 - 1)))
    other = draw.pick(list(used.values()) or [(here, here)])
    kinds = [
        record._replace(last_lba=here - 1),
        record._replace(first_lba=low - 1),
        record._replace(last_lba=high + 1),
        record._replace(first_lba=draw.number(64, [low, high]), last_lba=draw.number(64, [low, high])),
        record._replace(first_lba=other[1], last_lba=max(other[1], here)),
        record._replace(first_lba=min(other[0], here), last_lba=other[0]),
        record._replace(first_lba=low, last_lba=high),
        record,
    ]
    raw = record_bytes(draw.pick(kinds))
    kind = draw.below(6)
    if kind == 0:
        place = 16 + draw.below(112)
        return bytes(place) + b"\1" + bytes(127 - place)
    if kind == 1:
        return bytes(16) + raw[16:]
    if kind == 2 and used:
        twin = card.front_array + 128 * (draw.pick(list(used)) - 1)
        return raw[:16] + image[twin + 16 : twin + 32] + raw[32:]
    return raw


def entry(draw, image, b):
    """An odd entry in one or both arrays: nil type with bytes, overlapping, outside, last below first, or a twin GUID."""
    card = images.places(len(image), b)
    if not card:
        return []
    used = list(images.used_blocks(image, b))
    slot = draw.pick(used + [1, 128, 1 + draw.below(128)])
    raw = odd_entry(draw, image, b, card)
    sides = draw.pick(SIDES + (("front", "back"),) * 3)
    return in_arrays(card, sides, slot, 0, raw) + seal(draw, b, sides, 85)


def twin_guid(draw, image, b):
    """One used slot's GUID in another used slot, at times of the lowest and the highest; or nil in both, or a GUID one bit
    beside it; mostly in both arrays and with the sums repaired. With fewer than two used slots it is an odd entry."""
    card = images.places(len(image), b)
    held = images.used_guids(image, b)
    if not card or len(held) < 2:
        return entry(draw, image, b)
    one, two = draw.random.sample(draw.pick((sorted(held), sorted(held), (min(held), max(held)))), 2)
    kind = draw.below(6)
    guid = NIL if kind == 0 else draw.near_guid(held[one]) if kind == 1 else held[one]
    sides = draw.pick(SIDES + (("front", "back"),) * 3)
    steps = in_arrays(card, sides, two, 16, guid_bytes(guid))
    if kind == 0:
        steps += in_arrays(card, sides, one, 16, guid_bytes(guid))
    return steps + seal(draw, b, sides, 90)


def name_tail(draw, image, b):
    """Units after the first zero of a used slot's name, in one or both arrays, with the sums repaired: reading clears them, put and clear of
    another slot keep them."""
    card = images.places(len(image), b)
    used = list(images.used_blocks(image, b))
    if not card or not used:
        return []
    sides = draw.pick(SIDES + (("front", "back"),) * 3)
    steps = in_arrays(card, sides, draw.pick(used), 56 + 2 * draw.below(35), b"\0\0" + draw.data(2))
    return steps + [("seal", b, side == "front", True) for side in sides]


def flags(draw, image, b):
    """Any flags in a used slot, or one reserved bit alone, mostly in both arrays, with the sums repaired: the card stays
    good, and put of another slot keeps them."""
    card = images.places(len(image), b)
    used = list(images.used_blocks(image, b))
    if not card or not used:
        return []
    sides = draw.pick(SIDES + (("front", "back"),) * 6)
    bits = draw.pick((draw.random.getrandbits(64), 1 << 3 + draw.below(45), 2**64 - 1))
    steps = in_arrays(card, sides, draw.pick(used), 48, struct.pack("<Q", bits))
    return steps + [("seal", b, side == "front", True) for side in sides]


def differing(draw, image, b):
    """Some slots of one array changed, used and unused, the first and the last among them at times, also in the bytes after
    a name's end alone; at times the disk GUID too; the sums repaired."""
    card = images.places(len(image), b)
    if not card:
        return []
    side = draw.pick(("front", "back"))
    used = list(images.used_blocks(image, b))
    slots = draw.pick(([1], [128], [1, 128], draw.random.sample(range(1, 129), draw.pick((1, 2, 5)))))
    slots = slots + draw.random.sample(used, min(len(used), draw.below(3)))
    steps = []
    for slot in slots:
        steps += in_arrays(card, (side,), slot, draw.pick((126, draw.below(128))), draw.data(1))
    if draw.chance(30):
        steps.append(("store", (card.front if side == "front" else card.back) + 56, draw.data(16)))
    return steps + [("seal", b, side == "front", True)]


def disk_guid(draw, image, b):
    """Another disk GUID on one or both sides, with the sums repaired."""
    card = images.places(len(image), b)
    if not card:
        return []
    sides = draw.pick(SIDES)
    guid = draw.data(16)
    steps = [("store", (card.front if side == "front" else card.back) + 56, guid) for side in sides]
    return steps + [("seal", b, side == "front", False) for side in sides]


def block_zero(draw, image, b):
    """Bytes of block 0, which the card check does not read."""
    return [("store", draw.pick((0, 446, 510, 511)), draw.data(1 + draw.below(2)))]


def foreign_header(draw, image, b):
    """A header with a right sum and any fields at the primary's or the backup's place."""
    blocks = len(image) // b
    raw = bytearray(92)
    raw[:8], raw[8:] = b"EFI PART", draw.data(84)
    raw[84:88] = struct.pack("<I", draw.pick((128, 128, 256)))
    raw[16:20] = struct.pack("<I", images.headers.header_sum(bytes(raw)))
    return [("store", draw.pick((b, max(blocks - 1, 0) * b)), bytes(raw))]


ON_SHORT = (bit, length, block_zero, foreign_header, foreign_header, foreign_header)
ON_ENTRIES = (entry, entry, entry, entry, name_tail, name_tail, flags, twin_guid, twin_guid, differing)
ON_CARD = (bit, bit, field, field, field, signature, after_header, length, swap, disk_guid) + ON_ENTRIES
KINDS = ON_CARD + (block_zero, foreign_header)


def damage(draw, image, b):
    """One kind of damage, at times two. An image without room for a card gets the kinds that need none."""
    kinds = KINDS if images.places(len(image), b) else ON_SHORT
    steps = draw.pick(kinds)(draw, image, b)
    if draw.chance(20):
        steps = steps + draw.pick(kinds)(draw, images.made_from(image, steps), b)
    return steps
