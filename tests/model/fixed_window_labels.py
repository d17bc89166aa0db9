"""Cases with known answers of document 02, 13/13 over windows: labels that are handed in, their lengths, the order of the numbers, and cards that are
larger than memory."""

from fixed_labels import BAD_SIZES, MAY, MAY_BYTES, NO_SLOTS, odd_labels, raw, slots_of
from fixed_windows import damaged, wrong_lengths
from known_copies import SIZES, filled
from known_windows import ROOMY, refusal, some_slots, windows_of
from units import NOWHERE

DATE = (0, 2024, 5, 17, 772)
SMALL = {512: 75, 4096: 19}


def read_cases(calls):
    """18, 23, then 2 if there are fewer than 13 bytes, then 34, 35, 36; the bytes after the 13th are not looked at."""
    name = "card_window_read_label"
    for b, blocks in ROOMY:
        windows = windows_of(b, blocks, some_slots(b, blocks))
        for slot in (1, 64, 128):
            for data in (MAY_BYTES, MAY_BYTES + b"\0", MAY_BYTES + filled(99)):
                got = calls[name](*windows, blocks, b, slot, data)
                yield f"slot {slot}, {len(data)} bytes, {blocks} of {b}", got, (0, (MAY,), (*windows, data), NOWHERE)
            for length in (0, 1, 3, 12):
                yield f"slot {slot}, {length} bytes", *refusal(calls, name, windows, blocks, b, (slot, MAY_BYTES[:length]), 2)
                yield f"slot {slot}, {length} other bytes", *refusal(calls, name, windows, blocks, b, (slot, filled(length)), 2)
        for number, data in odd_labels():
            yield f"{data.hex()}, {blocks} of {b}", *refusal(calls, name, windows, blocks, b, (64, data), number)
            yield f"{data.hex()} and more, {blocks} of {b}", *refusal(calls, name, windows, blocks, b, (64, data + MAY_BYTES), number)
        for data in (b"", MAY_BYTES[:12], MAY_BYTES, filled(13)):
            for slot in NO_SLOTS:
                yield f"slot {slot}, {len(data)} bytes", *refusal(calls, name, windows, blocks, b, (slot, data), 18)
            for slot in (2, 63, 127):
                yield f"slot {slot}, {len(data)} bytes", *refusal(calls, name, windows, blocks, b, (slot, data), 23)


def sets():
    """Lists, the bytes of their labels, and what is due: number and slot. Slots 1, 64 and 128 are used."""
    good, sheet, june = MAY_BYTES, raw(sheet=1), raw(month=6)
    yield (1,), good, 0, 0
    yield (1, 64, 128), good + sheet + good, 0, 0
    yield (128, 1, 128), sheet + good + sheet, 0, 0
    yield (1, 64), good + june, 37, 64
    yield (1, 64, 128), good + june + filled(13), 37, 64
    yield (1, 128, 64), good + filled(13) + june, 34, 128
    yield (1, 64, 128), good + good + raw(style=9), 37, 128
    for slot in NO_SLOTS:
        yield (slot,), filled(13), 18, slot
        yield (1, slot, 64), good + good + june, 18, slot
    yield (2,), good, 23, 2
    yield (1, 2, 64), good + june + june, 23, 2
    yield (2, 0), filled(26), 23, 2
    yield (0, 2), filled(26), 18, 0
    for number, data in odd_labels():
        yield (64, 0), data + good, number, 64
        yield (1, 64, 2), good + data + good, number, 64


def judge_cases(calls):
    """The screen set with its labels handed in, 13 bytes for each place of the list."""
    for b, blocks in ROOMY:
        windows = windows_of(b, blocks, some_slots(b, blocks))
        for listed, data, number, slot in sets():
            got = calls["card_window_judge"](*windows, blocks, b, slots_of(*listed), data)
            due = (number, (slot, 0, 0, 0, 0) if number else DATE, (*windows, slots_of(*listed), data), NOWHERE)
            yield f"{listed}, {number} of {slot}, {blocks} of {b}", got, due


def repeated_cases(calls):
    """A repeated slot is judged as one, by the label at its first place; the bytes at its later places are not looked at."""
    good, june, bad = MAY_BYTES, raw(month=6), filled(13)
    for b, blocks in ROOMY:
        windows = windows_of(b, blocks, some_slots(b, blocks))
        for listed, data, due in (
            ((1, 1), good + good, DATE),
            ((1, 1), good + raw(sheet=5), DATE),
            ((1, 64, 1), good + raw(sheet=5) + good, DATE),
            ((1, 1), good + june, DATE),
            ((1, 1, 64), good + bad + good, DATE),
            ((1, 64, 1, 64), good + raw(sheet=5) + bad + june, DATE),
            ((1, 1), bad + good, (34, 1)),
            ((1, 64, 1), good + june + june, (37, 64)),
            ((1, 1, 64), good + june + june, (37, 64)),
            ((1, 1, 0), good + good + bad, (18, 0)),
        ):
            due = (0, due) if due == DATE else (due[0], (due[1], 0, 0, 0, 0))
            got = calls["card_window_judge"](*windows, blocks, b, slots_of(*listed), data)
            yield f"{listed} with other bytes, {blocks} of {b}", got, (*due, (*windows, slots_of(*listed), data), NOWHERE)


def length_cases(calls):
    """2 if the bytes are not 13 for each place of the list, before what any slot is refused by."""
    for b, blocks in ROOMY:
        windows = windows_of(b, blocks, some_slots(b, blocks))
        for listed in ((1,), (0,), (2, 1), (1, 64, 128), (1, 1)):
            due = 13 * len(listed)
            for length in {0, 1, due - 13, due - 1, due + 1, due + 13, 4 * len(listed), 2 * due} - {due}:
                rest = (slots_of(*listed), (MAY_BYTES * 9)[:length])
                yield f"{length} bytes for {listed}, {blocks} of {b}", *refusal(calls, "card_window_judge", windows, blocks, b, rest, 2)


def order_cases(calls):
    """1, 38, 3, 8, 10, 32, the card check's with their places, 2."""
    for b in SIZES:
        blocks, end, room = SMALL[b], 2**64 // b, {512: 68, 4096: 12}[b]
        good = windows_of(b, blocks, some_slots(b, blocks))
        short = (good[0][:-1], good[1])
        one, empty, read = (slots_of(0), b"x"), (b"", b""), (0, b"")
        for windows in (good, short, (b"", b"")):
            for bad in BAD_SIZES:
                for rest in (one, empty, (b"", b"x")):
                    yield f"block size {bad}", *refusal(calls, "card_window_judge", windows, end, bad, rest, 1)
                yield f"block size {bad}, read", *refusal(calls, "card_window_read_label", windows, end, bad, read, 1)
            for count in (0, 3, room - 1, room, blocks, blocks + 1, end - 1, end, end + blocks, 2**64 - 1):
                for data in (b"", b"x", MAY_BYTES):
                    yield f"an empty list, {count} blocks", *refusal(calls, "card_window_judge", windows, count, b, (b"", data), 38)
            for count, number in ((end, 3), (end + blocks, 3), (2**64 - 1, 3), (0, 8), (2, 8), (3, 10), (room - 1, 10)):
                yield f"{count} blocks, judged", *refusal(calls, "card_window_judge", windows, count, b, one, number)
                yield f"{count} blocks, read", *refusal(calls, "card_window_read_label", windows, count, b, read, number)
        for head, tail in wrong_lengths(b):
            windows = filled(head), filled(tail)
            yield f"windows of {head} and {tail}, judged", *refusal(calls, "card_window_judge", windows, blocks, b, one, 32)
            yield f"windows of {head} and {tail}, read", *refusal(calls, "card_window_read_label", windows, blocks, b, read, 32)
    for b, blocks in ROOMY:
        for what, windows, number, where in damaged(b, blocks):
            yield f"{what}, judged", *refusal(calls, "card_window_judge", windows, blocks, b, (slots_of(0), b"x"), number, where)
            yield f"{what}, read", *refusal(calls, "card_window_read_label", windows, blocks, b, (0, b""), number, where)


GROUPS = (read_cases, judge_cases, repeated_cases, length_cases, order_cases)
