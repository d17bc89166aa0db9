"""Cases with known answers for the free ground (document 02, 1/13)."""

import struct

import known
from known import B, GUID
from units import NOWHERE

REST = bytes(range(200, 240))


def numbers(*values):
    """A row of 64-bit numbers."""
    return struct.pack(f"<{len(values)}Q", *values)


def found(calls, image, places, more=REST):
    """Number, count and both rows of a call with so many places, and the rows' bytes after the count."""
    number, values, (_, starts, lengths), _ = calls["card_free_runs"](image, B, bytes(8 * places) + more, bytes(8 * places) + more)
    return number, values, starts, lengths


def run_cases(calls):
    """Holes at both ends and in the middle; slots out of order; slots side by side; no free block; no used slot."""
    for name, slots, runs in (
        ("no slot", {}, [(34, 6)]),
        ("holes at both ends and in the middle", {1: (35, 35), 2: (37, 38)}, [(34, 1), (36, 1), (39, 1)]),
        ("slots out of order", {5: (38, 39), 128: (34, 35)}, [(36, 2)]),
        ("slots side by side", {1: (35, 36), 2: (37, 38)}, [(34, 1), (39, 1)]),
        ("the first block alone", {9: (35, 39)}, [(34, 1)]),
        ("the last block alone", {9: (34, 38)}, [(39, 1)]),
        ("no free block", {1: (34, 39)}, []),
    ):
        image = known.card(calls, {slot: known.record(slot, *blocks) for slot, blocks in slots.items()})
        starts, lengths = (numbers(*row) for row in zip(*runs)) if runs else (b"", b"")
        yield name, found(calls, image, len(runs)), (0, (len(runs),), starts + REST, lengths + REST)


def room_cases(calls):
    """15 by either row, with no place and both rows as they came; count 0 with empty rows; the check before 15."""
    image = known.card(calls, {1: known.record(1, 35)})
    for places in ((1, 2), (2, 1), (1, 1), (0, 0), (0, 129)):
        rows = tuple(REST[:8] * count for count in places)
        yield f"rows of {places}", calls["card_free_runs"](image, B, *rows), (15, (0,), (image, *rows), NOWHERE)
    for places in ((2, 2), (2, 129), (129, 2)):
        yield f"rows of {places}", calls["card_free_runs"](image, B, *(bytes(8 * count) for count in places))[:2], (0, (2,))
    full = calls["card_lay"](bytes(68 * B), B, GUID)[2][0]
    full = calls["card_put"](full, B, 1, known.record(1, 34))[2][0]
    yield "68 blocks, slot 1 at 34, rows of 0", calls["card_free_runs"](full, B, b"", b""), (0, (0,), (full, b"", b""), NOWHERE)
    yield "no image, rows of 0", calls["card_free_runs"](b"", B, b"", b"")[::3], (8, NOWHERE)


def most_cases(calls):
    """128 slots with a free block before, between and behind them: 129 runs, which rows of 129 places take."""
    image = calls["card_lay"](bytes((67 + 257) * B), B, GUID)[2][0]
    for slot in range(1, 129):
        image = calls["card_put"](image, B, slot, known.record(slot, 33 + 2 * slot))[2][0]
    starts, lengths = numbers(*range(34, 34 + 258, 2)), numbers(*(1,) * 129)
    yield "129 runs", found(calls, image, 129), (0, (129,), starts + REST, lengths + REST)
    yield "128 places", found(calls, image, 128, b"")[:2], (15, (0,))


def ground_cases(calls):
    """All of them."""
    yield from run_cases(calls)
    yield from room_cases(calls)
    yield from most_cases(calls)
