"""Cases with known answers of document 02, 7/13: flags with names."""

import struct

from entries import Flags, row_bytes
from known import B, FIRST, LAST, card, record, with_entry, with_header
from units import NIL

PARTS = ("required", "no_block_io", "legacy_bootable", "reserved", "owner")
NONE = dict.fromkeys(PARTS, 0)
TOO_LARGE = (2**45, 2**45 + 1, 2**48, 2**61, 2**63, 2**64 - 1)
KNOWN = {
    0: NONE,
    1: NONE | {"required": 1},
    2: NONE | {"no_block_io": 1},
    4: NONE | {"legacy_bootable": 1},
    8: NONE | {"reserved": 1},
    2**47: NONE | {"reserved": 2**44},
    2**48: NONE | {"owner": 1},
    2**63: NONE | {"owner": 2**15},
    0x0123456789ABCDEF: dict(zip(PARTS, (1, 1, 1, 0x456789ABCDEF >> 3, 0x0123))),
    0xFEDCBA9876543210: dict(zip(PARTS, (0, 0, 0, 0xBA9876543210 >> 3, 0xFEDC))),
    2**64 - 1: dict(zip(PARTS, (1, 1, 1, 2**45 - 1, 2**16 - 1))),
}


def raw_entry(bits):
    """The 128 bytes of an entry with these flags, and other bytes beside them that are not zero."""
    return b"T" * 16 + b"P" * 16 + struct.pack("<QQQ", 34, 35, bits) + struct.pack("<36H", *range(1, 37))


def read_cases(calls):
    """The places of the parts; reading takes any bits, and reading then writing gives the same 64 bits."""
    for bits in (*KNOWN, *(1 << bit for bit in range(64)), *(2**64 - 1 - (1 << bit) for bit in range(64))):
        raw = raw_entry(bits)
        number, (held,) = calls["gpt_entry_from_bytes"](raw)[:2]
        yield f"reading {bits:x}", number, 0
        if bits in KNOWN:
            yield f"the parts of {bits:x}", {part: getattr(held, part) for part in PARTS}, KNOWN[bits]
        yield f"writing {bits:x} again", calls["gpt_entry_to_bytes"](bytes(128), held)[::2], (0, (raw,))
        img = calls["gpt_write_entry"](bytes(256), held, 1, 0, B, 128)[:3]
        yield f"writing {bits:x} to a device", img, (0, (128,), (bytes(128) + raw,))


def buffer_cases(calls):
    """28 whatever n is, with the buffer as it came; the largest reserved part of 45 bits is written."""
    for n in (0, 1, 48, 49, 55, 56, 127, 128, 129, 4096):
        out = b"\xee" * n
        for reserved in TOO_LARGE:
            given = record(1, 34)._replace(reserved=reserved)
            yield f"{n} bytes, reserved {reserved:x}", calls["gpt_entry_to_bytes"](out, given)[::2], (28, (out,))
        most = record(1, 34)._replace(reserved=2**45 - 1)
        number, _, (filled,) = calls["gpt_entry_to_bytes"](out, most)[:3]
        yield f"{n} bytes, 45 bits", (number, filled[48:56]), (0, bytes.fromhex("f8ffffffffff0000")[: max(n - 48, 0)])


def device_cases(calls):
    """A device write's order: 1, 7, 28, 3, 2."""
    image = bytes(range(256)) * 8
    for name, index, start, b, size, plain in (
        ("1", 0, 0, 511, 128, 1),
        ("1 before 7", 0, 0, 0, 0, 1),
        ("7, size 0", 0, 0, B, 0, 7),
        ("7, size 4097", 0, 0, B, 4097, 7),
        ("7 before 3", 0, 2**64 - 1, B, 4097, 7),
        ("3 of the start", 0, 2**64 - 1, B, 128, 3),
        ("3 of the index", 2**64 - 1, 0, B, 128, 3),
        ("3 of the sum", 5, 2**55 - 1, B, 128, 3),
        ("3 of the end", 3, 2**55 - 1, B, 128, 3),
        ("2", 16, 0, B, 128, 2),
        ("2, one byte", 0, 4, B, 1, 2),
        ("inside", 3, 1, B, 128, 0),
        ("inside, cut before the flags", 0, 1, B, 48, 0),
    ):
        for reserved in (0, 1, 2**45 - 1, *TOO_LARGE):
            due = 28 if reserved in TOO_LARGE and plain not in (1, 7) else plain
            got = calls["gpt_write_entry"](image, record(1, 34)._replace(reserved=reserved), index, start, b, size)
            yield f"device, {name}, reserved {reserved:x}", got[:2], (due, (0 if due else size,))
            yield f"device, {name}, reserved {reserved:x}: unchanged", got[2] == (image,), due != 0


def put_cases(calls):
    """28 is put's last refusal, for any reserved part but zero."""
    image = card(calls, {2: record(2, 34), 5: record(5, 35)})
    good = record(9, 36)
    for name, slot, given, due in (
        ("28", 9, good, (28, (0,))),
        ("25 before 28", 9, record(2, 36), (25, (2,))),
        ("22 before 28", 9, record(9, 35), (22, (5,))),
        ("22 before 25 and 28", 9, record(2, 35), (22, (5,))),
        ("21 before 28", 9, record(9, FIRST - 1), (21, (0,))),
        ("21 before 28, at the end", 9, record(9, LAST, LAST + 1), (21, (0,))),
        ("20 before 28", 9, record(9, 37, 36), (20, (0,))),
        ("19 before 28", 9, good._replace(part_type_guid=NIL), (19, (0,))),
        ("18 before 28", 0, good, (18, (0,))),
        ("its own GUID and blocks", 5, record(5, 35), (28, (0,))),
    ):
        for reserved in (1, 2**44, 2**45 - 1, *TOO_LARGE):
            got = calls["card_put"](image, B, slot, given._replace(reserved=reserved))[:3]
            yield f"put, {name}, reserved {reserved:x}", got, (*due, (image,))
    broken = with_header(image, 0, b"e", ("back",), False)
    yield "the check before 28", calls["card_put"](broken, B, 9, good._replace(reserved=1))[0], 4
    yield "1 before 28", calls["card_put"](image, 0, 9, good._replace(reserved=1))[0], 1
    given = good._replace(required=1, no_block_io=1, legacy_bootable=1, owner=0xABCD)
    number, _, (after,) = calls["card_put"](image, B, 9, given)[:3]
    place = 2 * B + 8 * 128 + 48
    yield "all flags but the reserved", (number, after[place : place + 8]), (0, b"\7\0\0\0\0\0\xcd\xab")
    yield "read back", calls["card_read_slot"](after, B, 9)[:2], (0, (1, given))


def foreign_cases(calls):
    """A foreign entry with reserved flags is read and listed, stays when another slot is put, and cannot be put back."""
    image = card(calls, {2: record(2, 34), 5: record(5, 35)})
    flags = struct.pack("<Q", 0xFEDC000000000009)
    foreign = with_entry(image, 2, 48, flags)
    held = record(2, 34)._replace(required=1, reserved=1, owner=0xFEDC)
    yield "check", calls["card_check"](foreign, B)[0], 0
    yield "reading", calls["card_read_slot"](foreign, B, 2)[:2], (0, (1, held))
    yield "the first used", calls["card_nth_used"](foreign, B, 0)[:2], (0, (1, 2, held))
    rows = row_bytes(2, held) + row_bytes(5, record(5, 35))
    yield "listing", calls["card_list"](foreign, B, bytes(len(rows)))[:3], (0, (2,), (foreign, rows))
    yield "put back", calls["card_put"](foreign, B, 2, held)[:3], (28, (0,), (foreign,))
    after = calls["card_put"](foreign, B, 9, record(9, 36))[2][0]
    yield "put of another slot", after[2 * B + 176 : 2 * B + 184], flags
    yield "read after it", calls["card_read_slot"](after, B, 2)[1], (1, held)
    plain = held._replace(reserved=0)
    number, _, (after,) = calls["card_put"](foreign, B, 2, plain)[:3]
    yield "put without the reserved part", (number, calls["card_read_slot"](after, B, 2)[1]), (0, (1, plain))
    yield "writing the entry alone", calls["gpt_write_entry"](foreign, held, 1, 2, B, 128)[:3], (0, (128,), (foreign,))


def other_cases(calls):
    """The calls that take a record and write nothing know no 28."""
    given = record(1, 34, 35)._replace(reserved=2**64 - 1)
    yield "is used", calls["gpt_is_used"](given)[:3], (0, (1,), ())
    yield "sectors", calls["gpt_sectors_len"](given)[:3], (0, (2,), ())
    yield "bytes", calls["gpt_bytes_len"](given, B)[:3], (0, (2 * B,), ())
    yield "start", calls["gpt_bytes_start"](given, B)[:3], (0, (34 * B,), ())


def by_bits(bits):
    """The parts bit by bit, by UEFI's table; those of the known numbers are written down above."""
    digits = [bits >> place & 1 for place in range(64)]
    part = {name: digits[place] for place, name in enumerate(PARTS[:3])}
    for name, low, high in (("reserved", 3, 47), ("owner", 48, 63)):
        part[name] = sum(digit << place for place, digit in enumerate(digits[low : high + 1]))
    return KNOWN.get(bits, part)


def bits_cases(calls):
    """Flags alone, each bit split and joined; 28 if the reserved part needs more than 45 bits."""
    for bits in (*KNOWN, *(1 << bit for bit in range(64)), *(2**64 - 1 - (1 << bit) for bit in range(64))):
        named = Flags(**by_bits(bits))
        yield f"{bits:x} split", calls["gpt_flags_of"](bits)[:3], (0, tuple(named), ())
        yield f"{bits:x} joined", calls["gpt_flags_bits"](named)[:3], (0, (bits,), ())
    for reserved in TOO_LARGE:
        yield f"bits, reserved {reserved:x}", calls["gpt_flags_bits"](Flags(1, 1, 1, reserved, 1))[:3], (28, (0,), ())


GROUPS = (read_cases, buffer_cases, device_cases, put_cases, foreign_cases, other_cases, bits_cases)
