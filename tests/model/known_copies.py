"""Cards of both block sizes for the cases with known answers of document 02, 6/13, and damage to one copy of them."""

import struct

import cuts
import images
from entries import record_bytes
from known import own_guid, record
from units import guid_bytes

SIZES = (512, 4096)
FREE = 6
BACK = {0: "front", 1: "back"}


def first_usable(b):
    """The first usable block; FREE of them follow each other."""
    return 2 + cuts.ARRAY // b


def room(b):
    """The length of the smallest card."""
    return (2 * (cuts.ARRAY // b) + 4) * b


def at(n, b, where, length=1):
    """A record with the n-th GUID on so many blocks, counted from the first usable one."""
    return record(n, first_usable(b) + where, first_usable(b) + where + length - 1)


def filled(length):
    """Bytes of which hardly any is zero, so that a byte which must stay is seen to stay."""
    return (bytes(range(1, 252)) * (length // 251 + 1))[:length]


def card(calls, b, slots, free=FREE, odd=0, guid=own_guid(0)):
    """A card with so many usable blocks and odd bytes after the last block, with these slots put."""
    image = calls["card_lay"](filled(room(b) + (free - 1) * b + odd), b, guid)[2][0]
    for slot, held in slots.items():
        image = calls["card_put"](image, b, slot, held)[2][0]
    return image


def spliced(front, back, b):
    """A card with the one card's front copy and the other card's back copy."""
    start = cuts.copy_blocks(front, b, 1)[1] * b
    return front[:start] + back[start:]


def with_header(image, b, back, place, data, sealed=True):
    """The card with bytes in one copy's header, whose own sum is right again if asked for."""
    image = images.stored(image, cuts.copy_blocks(image, b, back)[0] * b + place, data)
    return images.sealed(image, b, not back, False) if sealed else image


def with_entry(image, b, back, slot, place, data, sealed=True):
    """The card with bytes in one copy's array, whose sums are right again if asked for."""
    image = images.stored(image, cuts.copy_blocks(image, b, back)[1] * b + 128 * (slot - 1) + place, data)
    return images.sealed(image, b, not back, True) if sealed else image


def with_record(image, b, back, slot, held):
    """The card with a record in one copy's array, whose sums are right again."""
    return with_entry(image, b, back, slot, 0, record_bytes(held))


def more(data):
    """A number one higher, little-endian."""
    return (int.from_bytes(data, "little") + 1).to_bytes(len(data), "little")


def with_field(image, b, back, field):
    """The card with a field of one copy's header one higher and the header's sum right again."""
    place, width = images.FIELDS[field]
    return with_header(image, b, back, place, more(cuts.header_of(image, b, back)[place : place + width]))


LAYOUT = ("revision", "header size", "reserved", "current", "backup", "first usable", "last usable", "array start", "entry count", "entry size")


def damages(b):
    """Ways to spoil one copy of a card that has slots 2, 3 and 5 on blocks 0, 1 and 2; each takes an image and a side."""
    low, high = first_usable(b), first_usable(b) + FREE - 1
    ways = {
        "signature": lambda image, back: with_header(image, b, back, 7, b"t", False),
        "signature, sealed": lambda image, back: with_header(image, b, back, 0, b"e"),
        "zeros": lambda image, back: with_header(image, b, back, 0, bytes(b), False),
        "own sum": lambda image, back: with_header(image, b, back, 16, more(cuts.header_of(image, b, back)[16:20]), False),
        "disk GUID, not sealed": lambda image, back: with_header(image, b, back, 71, b"\xff", False),
        "array sum": lambda image, back: with_field(image, b, back, "array sum"),
        "first array byte": lambda image, back: with_entry(image, b, back, 1, 0, b"\1", False),
        "last array byte": lambda image, back: with_entry(image, b, back, 128, 127, b"\1", False),
        "nil type": lambda image, back: with_entry(image, b, back, 3, 0, bytes(16)),
        "last byte of an empty slot": lambda image, back: with_entry(image, b, back, 127, 127, b"\1"),
        "last below first": lambda image, back: with_record(image, b, back, 3, record(3, low + 4, low + 3)),
        "below usable": lambda image, back: with_record(image, b, back, 3, record(3, low - 1, low + 4)),
        "above usable": lambda image, back: with_record(image, b, back, 3, record(3, low + 4, high + 1)),
        "shared block": lambda image, back: with_record(image, b, back, 128, record(9, low + 2, low + 4)),
        "twins": lambda image, back: with_entry(image, b, back, 5, 16, guid_bytes(own_guid(2))),
        "nil twins": lambda image, back: with_entry(with_entry(image, b, back, 5, 16, bytes(16)), b, back, 2, 16, bytes(16)),
    }
    return ways | {field: lambda image, back, field=field: with_field(image, b, back, field) for field in LAYOUT}


def harmless(b):
    """Changes of one copy after which it is still good: bytes after the header's 92, flags and units after a name's end."""
    return {
        "after the header": lambda image, back: with_header(image, b, back, 92, b"\xff" * (b - 92), False),
        "last byte of the block": lambda image, back: with_header(image, b, back, b - 1, b"\1", False),
        "reserved flags": lambda image, back: with_entry(image, b, back, 3, 48, struct.pack("<Q", 2**64 - 1)),
        "name's tail": lambda image, back: with_entry(image, b, back, 3, 56, b"A\0\0\0B\0"),
        "disk GUID": lambda image, back: with_header(image, b, back, 56, b"other disk guid."),
    }
