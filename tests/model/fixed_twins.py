"""Cases with known answers of document 02, 3/13: two slots, one partition GUID."""

from entries import ROW
from known import B, FIRST, LAST, card, own_guid, record, refused_alike, with_entry, with_guid, with_header
from sums import crc32
from units import NIL, guid_bytes, guid_from

SLOTS = {2: record(2, 34), 5: record(5, 35)}


def put_cases(calls):
    """25 comes after 22 as a whole and names the slot that has the GUID; the slot's own GUID is allowed."""
    image = card(calls, SLOTS)
    nil_type = record(2, 36)._replace(part_type_guid=NIL)
    for name, slot, given, due in (
        ("the GUID of slot 2", 1, record(2, 36), (25, (2,))),
        ("the GUID of slot 5", 128, record(5, 36), (25, (5,))),
        ("a used slot, another's GUID", 2, record(5, 34), (25, (5,))),
        ("a used slot, a lower one's GUID", 5, record(2, 35), (25, (2,))),
        ("its own GUID and blocks", 2, record(2, 34), (0, (0,))),
        ("its own GUID, other blocks", 5, record(5, 36, 38), (0, (0,))),
        ("22 of a high slot, 25 of a low one", 9, record(2, 35), (22, (5,))),
        ("22 of a low slot, 25 of a high one", 9, record(5, 34), (22, (2,))),
        ("22 and 25 of one slot", 9, record(2, 34), (22, (2,))),
        ("22 of two slots, 25 of the higher", 9, record(5, 34, 35), (22, (2,))),
        ("22 of a slot beside its own GUID", 5, record(5, 34), (22, (2,))),
        ("21 before 25", 1, record(2, FIRST - 1), (21, (0,))),
        ("21 before 25, at the end", 1, record(2, LAST + 1), (21, (0,))),
        ("20 before 25", 1, record(2, 37, 36), (20, (0,))),
        ("19 before 25", 1, nil_type, (19, (0,))),
        ("18 before 25", 129, record(2, 36), (18, (0,))),
        ("another's GUID as the type", 1, record(1, 36)._replace(part_type_guid=own_guid(2)), (0, (0,))),
    ):
        got = calls["card_put"](image, B, slot, given)
        yield f"put, {name}", got[:2], due
        yield f"put, {name}: changed", got[2] == (image,), due[0] != 0 or SLOTS.get(slot) == given


def near_cases(calls):
    """GUIDs that differ in one bit are no twins, whichever bit it is; a cleared slot's GUID is free again."""
    image = card(calls, SLOTS)
    for bit in range(128):
        raw = bytearray(guid_bytes(own_guid(2)))
        raw[bit // 8] ^= 1 << bit % 8
        near = guid_from(bytes(raw))
        yield f"put, bit {bit}", calls["card_put"](image, B, 9, record(9, 36)._replace(part_guid=near))[:2], (0, (0,))
        yield f"check, bit {bit}", calls["card_check"](with_guid(image, 5, near), B)[0], 0
    cleared = calls["card_clear"](image, B, 2)[2][0]
    yield "the GUID of a cleared slot", calls["card_put"](cleared, B, 9, record(2, 36))[:2], (0, (0,))


def nil_cases(calls):
    """Two nil GUIDs are twins like any other; the zeros of an unused slot are not one of them."""
    nil = record(0, 34)._replace(part_guid=NIL)
    image = card(calls, {3: nil})
    yield "one nil GUID", calls["card_check"](image, B)[0], 0
    yield "one nil GUID is used", calls["card_read_slot"](image, B, 3)[1], (1, nil)
    yield "two nil GUIDs", calls["card_put"](image, B, 1, nil._replace(first_lba=35, last_lba=35))[:2], (25, (3,))
    yield "the nil GUID again", calls["card_put"](image, B, 3, nil)[:2], (0, (0,))
    both = card(calls, {3: nil, 4: record(4, 35)})
    yield "nil GUIDs on the card", calls["card_check"](with_guid(both, 4, NIL), B)[0], 16


def check_cases(calls):
    """Twins are 16 in the check's last step: after 17 and after everything of the back."""
    image = card(calls, SLOTS)
    twins = with_guid(image, 5, own_guid(2))
    far = card(calls, {1: record(1, 34), 128: record(2, 35)})
    near = card(calls, {7: record(1, 34), 8: record(2, 35)})
    three = card(calls, {4: record(1, 36), 7: record(2, 35), 8: record(3, 34)})
    cases = {
        "twins": (twins, 16),
        "twins, slots 1 and 128": (with_guid(far, 128, own_guid(1)), 16),
        "twins, neighbours": (with_guid(near, 7, own_guid(2)), 16),
        "twins, another slot between": (with_guid(three, 8, own_guid(1)), 16),
        "twins in front alone": (with_guid(image, 5, own_guid(2), ("front",)), 17),
        "twins in back alone": (with_guid(image, 5, own_guid(2), ("back",)), 17),
        "twins, and the arrays differ": (with_entry(twins, 9, 56, b"A", ("back",)), 17),
        "twins, and the disk GUIDs differ": (with_header(twins, 56, b"other disk guid.", ("back",)), 17),
        "twins, back array sum": (with_header(twins, 88, bytes(4), ("back",)), 6),
        "twins, back layout": (with_header(twins, 40, b"\x23", ("back",)), 16),
        "twins, back header sum": (with_header(twins, 16, b"\0\0\0\0", ("back",), False), 5),
        "twins, back signature": (with_header(twins, 0, b"e", ("back",), False), 4),
        "twins that share a block": (with_entry(twins, 5, 32, b"\x22\0\0\0\0\0\0\0\x22"), 16),
        "twins with nil types": (with_entry(with_entry(twins, 5, 0, bytes(16)), 2, 0, bytes(16)), 16),
    }
    for name, (hurt, number) in cases.items():
        yield from refused_alike(calls, name, hurt, 2, record(2, 34), number)


def other_cases(calls):
    """No card call but lay mends twins; the ported reading of arrays stays as it is and takes them."""
    twins = with_guid(card(calls, SLOTS), 5, own_guid(2))
    yield "put of another GUID over a twin", calls["card_put"](twins, B, 5, record(9, 35))[0], 16
    yield "a bad slot on a card with twins", calls["card_put"](twins, B, 0, record(9, 35))[0], 16
    yield "clear of a twin", calls["card_clear"](twins, B, 5)[0], 16
    laid = calls["card_lay"](twins, B, own_guid(0))
    yield "lay", (laid[0], calls["card_count_used"](laid[2][0], B)[:2]), (0, (0, (0,)))
    header = calls["gpt_read_primary_header"](twins, B)[1][0]
    yield "header", header.crc32_parts, crc32(twins[2 * B : 2 * B + 16384])
    yield "count", calls["gpt_count_partitions"](twins, header, B)[:2], (0, (2,))
    yield "next", calls["gpt_next_partition"](twins, header, B, 2)[:2], (0, (5,))
    yield "rows", calls["gpt_file_read_partitions"](twins, header, B, bytes(2 * ROW))[:2], (0, (2,))
    for slot, first in ((2, 34), (5, 35)):
        yield f"slot {slot}", calls["gpt_read_partition"](twins, header, B, slot)[:2], (0, (1, record(2, first)))
    yield "writing the header", calls["gpt_write_primary"](twins, header, B)[:3], (0, (B, header), (twins,))


GROUPS = (put_cases, near_cases, nil_cases, check_cases, other_cases)
