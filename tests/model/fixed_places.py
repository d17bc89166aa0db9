"""Cases with known answers of document 02, 5/13: which table, and where."""

import struct

from entries import ROW
from known import B, BOTH, FIRST, card, own_guid, record, refused_alike, table, with_entry, with_guid, with_header
from units import NIL, guid_bytes

SLOTS = {2: record(2, 34), 5: record(5, 35)}
FRONT, BACK, DISK_GUID = (1, 0), (2, 0), (3, 0)
NOWHERE = (0, 0)
OTHER = b"other disk guid."


def signature(image, *sides):
    """4."""
    return with_header(image, 0, b"e", sides, False)


def own_sum(image, *sides):
    """5."""
    return with_header(image, 16, bytes(4), sides, False)


def layout(image, *sides):
    """16 of a header."""
    return with_header(image, 40, b"\x23", sides)


def array_sum(image, *sides):
    """6."""
    return with_header(image, 88, bytes(4), sides)


def table_cases(image):
    """4, 5, 16 and 6 of one table say which; of two broken tables it is the front, and within one the order stays."""
    kinds = {4: signature, 5: own_sum, 16: layout, 6: array_sum}
    for number, hurt in kinds.items():
        yield f"{number} of the front", hurt(image, "front"), number, FRONT
        yield f"{number} of the back", hurt(image, "back"), number, BACK
        yield f"{number} of both", hurt(image, *BOTH), number, FRONT
        for other, hurt_too in kinds.items():
            yield f"{number} of the front, {other} of the back", hurt_too(hurt(image, "front"), "back"), number, FRONT
    for side, where in (("front", FRONT), ("back", BACK)):
        yield f"4 before 5, {side}", signature(own_sum(image, side), side), 4, where
        yield f"5 before 16 and 6, {side}", own_sum(layout(array_sum(image, side), side), side), 5, where
        yield f"16 before 6, {side}", layout(array_sum(image, side), side), 16, where


def disagree_cases(image):
    """17 says the disk GUID, first if both apply, or the first slot whose 128 bytes differ."""
    for side in BOTH:
        guid = with_header(image, 56, OTHER, (side,))
        yield f"disk GUID, {side}", guid, 17, DISK_GUID
        for slot in (1, 2, 3, 5, 64, 127, 128):
            for place, byte in ((0, b"\1"), (47, b"\1"), (127, b"\1")):
                differs = with_entry(image, slot, place, byte, (side,))
                yield f"slot {slot}, byte {place}, {side}", differs, 17, (4, slot)
            yield f"disk GUID and slot {slot}, {side}", with_entry(guid, slot, 60, b"A", (side,)), 17, DISK_GUID
        for slots in ((1, 128), (3, 7, 9), (2, 5), (127, 128)):
            several = image
            for slot in reversed(slots):
                several = with_entry(several, slot, 60, b"A", (side,))
            yield f"slots {slots}, {side}", several, 17, (4, slots[0])
        after_name = with_entry(image, 2, 126, b"A", (side,))
        yield f"after a name's zero, {side}", after_name, 17, (4, 2)
        yield f"the same before another record, {side}", with_entry(after_name, 5, 48, b"\1", (side,)), 17, (4, 2)
    apart = with_entry(with_entry(image, 7, 60, b"A", ("front",)), 3, 60, b"A", ("back",))
    yield "slot 7 of the front, slot 3 of the back", apart, 17, (4, 3)


def entry_cases(image):
    """16 of the entries counts as front, twins among them; 17 and everything of the back come before it."""
    kinds = {
        "nil type": (2, 0, bytes(16)),
        "last below first": (5, 32, struct.pack("<QQ", 36, 35)),
        "outside usable": (5, 32, struct.pack("<QQ", FIRST - 1, 35)),
        "shares a block": (5, 32, struct.pack("<QQ", 34, 35)),
        "twins": (5, 16, guid_bytes(own_guid(2))),
    }
    for name, (slot, place, data) in kinds.items():
        bad = with_entry(image, slot, place, data)
        yield name, bad, 16, FRONT
        yield f"{name} in front alone", with_entry(image, slot, place, data, ("front",)), 17, (4, slot)
        yield f"{name} in back alone", with_entry(image, slot, place, data, ("back",)), 17, (4, slot)
        yield f"{name}, and slot 1 differs", with_entry(bad, 1, 60, b"A", ("back",)), 17, (4, 1)
        yield f"{name}, and the disk GUID differs", with_header(bad, 56, OTHER, ("front",)), 17, DISK_GUID
        for number, hurt in {4: signature, 5: own_sum, 16: layout, 6: array_sum}.items():
            yield f"{name}, {number} of the back", hurt(bad, "back"), number, BACK
            yield f"{name}, {number} of the front", hurt(bad, "front"), number, FRONT
    cut = image[:-B]
    yield "an image cut by a block", cut, 16, FRONT
    yield "an image with a block more", image + bytes(B), 16, FRONT


def nowhere_cases(image):
    """8 and 10 have no place."""
    yield "8", image[: 3 * B - 1], 8, NOWHERE
    yield "10", image[: 67 * B], 10, NOWHERE


def checked_cases(calls):
    """Every call that begins with the card check hands on the number with the place; the rest of the answer is as ever."""
    image = card(calls, SLOTS)
    for group in (table_cases, disagree_cases, entry_cases, nowhere_cases):
        for name, hurt, number, where in group(image):
            yield from refused_alike(calls, name, hurt, 2, record(2, 34), number, where)


def own_cases(calls):
    """What a call refuses by itself, and what it accepts, has no place; 22 and 25 keep their slot."""
    image = card(calls, SLOTS)
    good = record(9, 36)
    for name, args, due in (
        ("card_check", (B,), (0, (0,))),
        ("card_check", (0,), (1, (0,))),
        ("card_put", (B, 9, good), (0, (0,))),
        ("card_put", (B, 129, good), (18, (0,))),
        ("card_put", (B, 9, good._replace(part_type_guid=NIL)), (19, (0,))),
        ("card_put", (B, 9, record(9, 37, 36)), (20, (0,))),
        ("card_put", (B, 9, record(9, FIRST - 1)), (21, (0,))),
        ("card_put", (B, 9, record(9, 35)), (22, (5,))),
        ("card_put", (B, 9, record(5, 36)), (25, (5,))),
        ("card_put", (B, 9, good._replace(reserved=1)), (28, (0,))),
        ("card_clear", (B, 0), (18, (0,))),
        ("card_clear", (B, 2), (0, (0,))),
        ("card_write_payload", (B, 0, 0, b"map"), (18, (0,))),
        ("card_write_payload", (B, 1, 0, b"map"), (23, (0,))),
        ("card_write_payload", (B, 2, B, b"map"), (24, (0,))),
        ("card_write_payload", (B, 2, 0, b"map"), (0, (3,))),
        ("card_count_used", (B,), (0, (2,))),
        ("card_next_used", (B, 2), (0, (5,))),
        ("card_read_slot", (B, 2), (0, (1, SLOTS[2]))),
        ("card_nth_used", (B, 1), (0, (1, 5, SLOTS[5]))),
        ("card_list", (B, bytes(2 * ROW - 1)), (15, (0,))),
        ("card_list", (B, bytes(2 * ROW)), (0, (2,))),
        ("card_lay", (B, own_guid(0)), (0, (0,))),
    ):
        got = calls[name](image, *args)
        yield f"{name} {args!r:.60}", (got[:2], got[3]), (due, NOWHERE)
    yield "lay, 8", calls["card_lay"](bytes(3 * B - 1), B, own_guid(0))[::3], (8, NOWHERE)
    yield "lay, 10", calls["card_lay"](bytes(67 * B), B, own_guid(0))[::3], (10, NOWHERE)


def ported_cases(calls):
    """The ported calls keep their plain numbers."""
    image = card(calls, SLOTS)
    header = calls["gpt_read_primary_header"](image, B)[1][0]
    yield "front, 4", calls["gpt_read_primary_header"](signature(image, "front"), B)[::3], (4, NOWHERE)
    yield "back, 5", calls["gpt_read_backup_header"](own_sum(image, "back"), B)[::3], (5, NOWHERE)
    hurt = image[: table("front")[1]] + b"\1" + image[table("front")[1] + 1 :]
    yield "6", calls["gpt_count_partitions"](hurt, header, B)[::3], (6, NOWHERE)
    twins = with_guid(image, 5, own_guid(2))
    header = calls["gpt_read_primary_header"](twins, B)[1][0]
    yield "twins", calls["gpt_count_partitions"](twins, header, B)[::3], (0, NOWHERE)


GROUPS = (checked_cases, own_cases, ported_cases)
