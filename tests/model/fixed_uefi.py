"""Cases with known answers of document 02, 9/13: cards from other makers, each test of the second edition at its edge, and both editions beside
each other."""

import struct
import zlib

from entries import ROW, ZERO
from foreign import array_bytes, header_block, header_of
from headers import ZERO as NO_HEADER
from known_copies import SIZES, at, card, filled
from units import NOWHERE

BLOCKS = 40
USED = b"type of an entry" + bytes(112)
SIZES_OF_ENTRIES = (128, 256, 512, 1024, 2048, 4096)


def row(slot, raw):
    """The row of an entry whose name has no units after its end."""
    return struct.pack("<Q", slot) + raw[:128]


def image(b, side, array, start=2, **fields):
    """40 blocks with an array at a block and a header for it at block 1 or in the last block. array is the entry size, the count and the
    entries."""
    size, count, held = array
    raw = array_bytes(held, count, size)
    lba, other = (1, BLOCKS - 1) if side == "primary" else (BLOCKS - 1, 1)
    laid = bytearray(BLOCKS * b)
    laid[start * b : start * b + len(raw)] = raw
    where = (start, count, size, zlib.crc32(raw))
    laid[lba * b : lba * b + b] = header_block(b, lba, other, where, **fields)
    return bytes(laid), (b, lba, other, where)


def asked(calls, side, given, b, length=ROW * 4):
    """The number of the header alone, of the count and of the listing."""
    names = (f"gpt_uefi_read_{side}_header", f"gpt_uefi_count_{side}", f"gpt_uefi_list_{side}")
    return tuple(calls[name](given, b, *(() if i < 2 else (filled(length),)))[0] for i, name in enumerate(names))


def stated_cases(calls):
    """Stated sizes from below 92 to above B, with bytes after 92 that the sum covers; the header's fields and its sum."""
    for b in SIZES:
        for side in ("primary", "backup"):
            for stated in (0, 91, 92, 93, 96, 128, 512, 513, b - 1, b, b + 1, 4096, 4097, 2**32 - 1):
                extra = filled(min(max(stated, 92), b) - 92)
                given, facts = image(b, side, (128, 4, {2: USED}), stated=stated, extra=extra)
                got = calls[f"gpt_uefi_read_{side}_header"](given, b)
                own = struct.unpack_from("<I", given, facts[1] * b + 16)[0]
                right = header_of(*facts, stated=stated)._replace(crc32=own)
                due = (0, (right,)) if 92 <= stated <= b else (29, (NO_HEADER,))
                yield f"{side} of {b}, {stated} bytes stated", got, (*due, (given,), NOWHERE)
                first = calls[f"gpt_read_{side}_header"](given, b)
                number = 0 if zlib.crc32(given[facts[1] * b :][:16] + bytes(4) + given[facts[1] * b + 20 :][:72]) == own else 5
                yield f"{side} of {b}, {stated} bytes, the first edition", (first[0], stated == 92 and first[1]), (number, stated == 92 and got[1])


def header_cases(calls):
    """30 and 31 at their edges and their order; what is not looked at."""
    for b in SIZES:
        for side in ("primary", "backup"):
            for stated in (92, 96, b - 1):
                given, facts = image(b, side, (128, 4, {2: USED}), stated=stated)
                place = facts[1] * b
                for at_byte in (stated, b - 1):
                    dirty = given[: place + at_byte] + b"\1" + given[place + at_byte + 1 :]
                    yield f"{side} of {b}, byte {at_byte} of {stated}", asked(calls, side, dirty, b), (30, 30, 30)
                covered = given[: place + stated - 1] + b"\1" + given[place + stated :]
                yield f"{side} of {b}, byte {stated - 1} of {stated}", asked(calls, side, covered, b), (5, 5, 5)
                beside = given[: place + b] + b"\1" + given[place + b + 1 :]
                yield f"{side} of {b}, the byte after the block", asked(calls, side, beside, b)[0], 0
            for own in (0, 2, BLOCKS, BLOCKS - 2, 2**32 + 1, 2**64 - 1):
                given, facts = image(b, side, (128, 4, {2: USED}), own=own)
                yield f"{side} of {b}, own block {own}", asked(calls, side, given, b), (31, 31, 31)
                place = facts[1] * b
                dirty = given[: place + 92] + b"\1" + given[place + 93 :]
                yield f"{side} of {b}, own block {own}, dirty", asked(calls, side, dirty, b), (30, 30, 30)
            given, _ = image(b, side, (128, 4, {2: USED}), reserved=5, revision=0x20003)
            yield f"{side} of {b}, reserved and revision", asked(calls, side, given, b), (0, 0, 0)
            given, _ = image(b, side, (128, 4, {2: USED}), off=1)
            yield f"{side} of {b}, own sum", asked(calls, side, given, b), (5, 5, 5)


def short_cases(calls):
    """1, 8 and 2 for the block, and a backup found from the whole blocks."""
    for b in SIZES:
        front, _ = image(b, "primary", (128, 4, {2: USED}))
        for length, number in ((0, 2), (b + 91, 2), (b + 92, 2), (2 * b - 1, 2), (2 * b, 0)):
            yield f"primary of {b}, {length} bytes", calls["gpt_uefi_read_primary_header"](front[:length], b)[0], number
            due = 2 if length < 3 * b else 0
            yield f"primary of {b}, {length} bytes, listed", calls["gpt_uefi_list_primary"](front[:length], b, bytes(ROW))[0], due
        for length in (0, b, 3 * b - 1):
            yield f"backup of {b}, {length} bytes", asked(calls, "backup", front[:length], b), (8, 8, 8)
        yield f"backup of {b}, three blocks", asked(calls, "backup", bytes(3 * b), b), (4, 4, 4)
        back, _ = image(b, "backup", (128, 4, {2: USED}))
        yield f"backup of {b}, odd bytes", asked(calls, "backup", back + bytes(b - 1), b), (0, 0, 0)
        yield f"backup of {b}, one block more", asked(calls, "backup", back + bytes(b), b), (4, 4, 4)
        for bad in (0, 511, 1024, 2**32 + b, 2**64 - 1):
            yield f"{bad} for {b}", (asked(calls, "primary", front, bad), asked(calls, "backup", b"", bad)), ((1, 1, 1), (1, 1, 1))


def entry_cases(calls):
    """Entry sizes; presence by the type alone; bytes after 128; the rows and the bytes that stay."""
    for b in SIZES:
        for size in SIZES_OF_ENTRIES:
            last = 16384 // size if b == 512 else 100
            count = min(last, (BLOCKS - 3) * b // size)
            held = {1: USED.ljust(size, b"\xff"), 2: bytes(16) + filled(size - 16), 3: bytes(15) + b"\1" + bytes(112), count: USED}
            for side in ("primary", "backup"):
                given, facts = image(b, side, (size, count, held))
                slots = sorted({1, 3, count})
                rows = b"".join(row(slot, held[slot]) for slot in slots)
                out = filled(len(rows) + ROW + 1)
                due = (0, (len(slots),), (given, rows + out[len(rows) :]), NOWHERE)
                yield f"{side} of {b}, entries of {size}", calls[f"gpt_uefi_list_{side}"](given, b, out), due
                header = header_of(*facts)
                yield f"header of {b}, entries of {size}", calls["gpt_uefi_file_read_partitions"](given, header, b, out), due
                short = out[: len(rows) - 1]
                yield f"{side} of {b}, one byte short", calls[f"gpt_uefi_list_{side}"](given, b, short), (15, (0,), (given, short), NOWHERE)
                for after in range(count + 2):
                    following = min((slot for slot in slots if slot > after), default=0)
                    got = calls["gpt_uefi_next_partition"](given, header, b, after)[:2]
                    yield f"{side} of {b}, entries of {size}, after {after}", got, (0, (following,))
                yield "a nil type", calls["gpt_uefi_read_partition"](given, header, b, 2)[:2], (0, (0, ZERO))
                for slot in (0, count + 1, 2**32 - 1):
                    yield f"slot {slot}", calls["gpt_uefi_read_partition"](given, header, b, slot)[:2], (18, (0, ZERO))


def array_cases(calls):
    """7 before 3, the sizes that are no size, an empty array anywhere, an end past 64 bits, the sum."""
    for b in SIZES:
        for size in (0, 1, 64, 127, 129, 384, 640, 4097, 4224, 8192, 2**31, 2**32 - 1):
            for start in (2, 2**64 - 1):
                block = header_block(b, 1, 39, (start, 4, size, 0))
                given = bytes(b) + block + bytes(38 * b)
                yield f"entries of {size} at {start}", asked(calls, "primary", given, b), (0, 7, 7)
        for start, count, number in (
            (2**64 // b, 0, 3),
            (2**64 // b - 1, 0, 0),
            (40, 0, 0),
            (41, 0, 0),
            (2**64 // b - 1, 4, 2),
            (2**64 // b, 4, 3),
            (40, 1, 2),
            (2, 2**32 - 1, 2),
        ):
            given = bytes(b) + header_block(b, 1, 39, (start, count, 4096, 0)) + bytes(38 * b)
            yield f"{count} entries at {start} of {b}", asked(calls, "primary", given, b, 0), (0, number, number)
        given = bytes(b) + header_block(b, 1, 39, (2, 0, 128, 1)) + bytes(38 * b)
        yield f"an empty array with a sum, {b}", asked(calls, "primary", given, b), (0, 6, 6)
        good, facts = image(b, "backup", (256, 3, {1: USED}))
        spoilt = good[: 2 * b + 3 * 256 - 1] + b"\1" + good[2 * b + 3 * 256 :]
        yield f"the last byte of the last entry, {b}", asked(calls, "backup", spoilt, b), (0, 6, 6)
        yield "18 after 6", calls["gpt_uefi_read_partition"](spoilt, header_of(*facts), b, 9)[0], 6
        yield "15 after 6", calls["gpt_uefi_list_backup"](spoilt, b, b"")[0], 6


def both_cases(calls):
    """A laid card reads alike in both editions; with an entry of nil type and other bytes it does not."""
    for b in SIZES:
        slots = {2: at(2, b, 0), 3: at(3, b, 1), 128: at(5, b, 2)}
        laid = card(calls, b, slots)
        for side in ("primary", "backup"):
            one, two = calls[f"gpt_read_{side}_header"](laid, b), calls[f"gpt_uefi_read_{side}_header"](laid, b)
            yield f"{side} of {b} in both", (one[0], two), (0, one)
            out = filled(3 * ROW)
            rows = calls["gpt_file_read_partitions"](laid, one[1][0], b, out)
            yield f"rows of {b} in both", calls["gpt_uefi_file_read_partitions"](laid, one[1][0], b, out), rows
            yield f"rows of {b} in one call", calls[f"gpt_uefi_list_{side}"](laid, b, out), rows
        odd, facts = image(b, "primary", (128, 2, {1: bytes(16) + b"\1", 2: USED}))
        header = header_of(*facts)
        counts = tuple(calls[name](odd, header, b)[1][0] for name in ("gpt_count_partitions", "gpt_uefi_count_partitions"))
        yield f"nil type and other bytes, {b}", counts, (2, 1)


GROUPS = (stated_cases, header_cases, short_cases, entry_cases, array_cases, both_cases)
