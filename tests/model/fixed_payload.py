"""Cases with known answers of where a slot's payload stands in the card (over an image and over windows), and of reading it."""

from itertools import product

from known import record
from known_copies import SIZES, at, card, damages, filled, first_usable, room
from known_windows import CARDS, LARGE, ROOMY, refusal, some_slots, windows_of
from units import NOWHERE

BAD_SIZES = (0, 511, 513, 4097, 2**32 + 512, 2**64 - 1)


def edges(size):
    """Places and lengths at the end of a partition of so many bytes, and whether they fit; sums that pass 64 bits never do."""
    inside = ((0, 0), (0, 1), (0, size), (1, size - 1), (size - 1, 1), (size - 1, 0), (size, 0))
    past = ((0, size + 1), (1, size), (size - 1, 2), (size, 1), (size + 1, 0), (2**63, 0), (2**63, 2**63), (2**64 - 1, 0), (0, 2**64 - 1))
    wrapped = ((2**64 - 1, 1), (2**64 - 1, 2), (2**64 - size, size), (2**64 - 1, 2**64 - 1), (1, 2**64 - 1))
    return [(*pair, True) for pair in inside] + [(*pair, False) for pair in past + wrapped]


def place_cases(calls):
    """The place is first block times B plus the place in the partition; 18, 23 and 24 by whole numbers; over windows alike."""
    for b in SIZES:
        image = card(calls, b, {2: at(2, b, 0), 128: at(3, b, 2, 3)}, odd=1)
        head, tail = image[: 2 * b + 16384], image[-1 - b - 16384 : -1]
        for slot, first, count in ((2, first_usable(b), 1), (128, first_usable(b) + 2, 3)):
            for place, n, fits in edges(count * b):
                due = (0, (first * b + place,)) if fits else (24, (0,))
                name = f"{n} bytes at {place} of slot {slot}, {b}"
                yield name, calls["card_payload_place"](image, b, slot, place, n), (*due, (image,), NOWHERE)
                got = calls["card_window_payload_place"](head, tail, len(image) // b, b, slot, place, n)
                yield f"{name}, over windows", got, (*due, (head, tail), NOWHERE)
        for number, slot in ((18, 0), (18, 129), (18, 258), (18, 2**32 - 1), (23, 1), (23, 127)):
            for place in (0, 2**64 - 1):
                got = calls["card_payload_place"](image, b, slot, place, 0)
                yield f"slot {slot}, {b}", got, (number, (0,), (image,), NOWHERE)
                yield f"slot {slot}, {b}, over windows", *refusal(
                    calls, "card_window_payload_place", (head, tail), len(image) // b, b, (slot, place, 0), number
                )


def large_cases(calls):
    """Places in cards that are larger than memory, up to the last byte before the back table."""
    for b, blocks in ROOMY:
        low, high = first_usable(b), CARDS[b, blocks][1]
        windows = windows_of(b, blocks, some_slots(b, blocks))
        for slot, first, last in ((1, low + 1, low + 1), (64, high - 1, high - 1), (128, low + 3, high - 3)):
            for place, n, fits in edges((last - first + 1) * b):
                fits = fits or place + n <= (last - first + 1) * b
                due = (0, (first * b + place,)) if fits else (24, (0,))
                got = calls["card_window_payload_place"](*windows, blocks, b, slot, place, n)
                yield f"{n} bytes at {place} of slot {slot}, {blocks} of {b}", got, (*due, windows, NOWHERE)
    for b, blocks in LARGE:
        low, high = first_usable(b), CARDS[b, blocks][1]
        windows = windows_of(b, blocks, {7: record(7, low, high)})
        size = (high - low + 1) * b
        got = calls["card_window_payload_place"](*windows, blocks, b, 7, size, 0)
        yield f"the end of all usable blocks, {blocks} of {b}", got[:2], (0, ((high + 1) * b,))
        yield f"one byte past them, {blocks} of {b}", calls["card_window_payload_place"](*windows, blocks, b, 7, size, 1)[:2], (24, (0,))
    windows = windows_of(512, 2**34, {7: record(7, 34, 17179869150)})
    got = calls["card_window_payload_place"](*windows, 2**34, 512, 7, 8 * 10**12, 500)
    yield "eight million million bytes in, of 8 TiB", got[:2], (0, (8000000017408,))


def read_cases(calls):
    """Reading: what was written is read again; the bytes beside it are what they were; a refusal leaves the lent bytes and the image."""
    for b in SIZES:
        image = card(calls, b, {2: at(2, b, 0), 128: at(3, b, 2, 3)}, odd=b - 1)
        start = (first_usable(b) + 2) * b
        for place, data in ((0, b"map"), (b - 1, b"two blocks"), (3 * b - 5, b"the end"[:5]), (3 * b, b""), (0, filled(3 * b)), (7, b"")):
            stored = calls["card_write_payload"](image, b, 128, place, data)[2][0]
            got = calls["card_read_payload"](stored, b, 128, place, b"\xee" * len(data))
            yield f"{len(data)} bytes at {place}, {b}", got, (0, (len(data),), (stored, data), NOWHERE)
            at_place = calls["card_payload_place"](stored, b, 128, place, len(data))[1][0]
            yield f"{len(data)} bytes at {place}, {b}, their place", stored, image[:at_place] + data + image[at_place + len(data) :]
            whole = calls["card_read_payload"](stored, b, 128, 0, bytes(3 * b))[2][1]
            yield f"the partition with {len(data)} bytes at {place}, {b}", whole, stored[start : start + 3 * b]
        for slot, place, length, number in (
            (128, 0, 3 * b + 1, 24),
            (128, 3 * b, 1, 24),
            (128, 3 * b + 1, 0, 24),
            (128, 2**64 - 1, 1, 24),
            (128, 2**64 - 1, 2, 24),
            (2, b - 1, 2, 24),
            (1, 0, 0, 23),
            (1, 2**64 - 1, 9, 23),
            (0, 0, 0, 18),
            (129, 2**64 - 1, 9, 18),
            (2**32 - 1, 0, 1, 18),
        ):
            out = filled(length)
            got = calls["card_read_payload"](image, b, slot, place, out)
            yield f"{length} bytes at {place} of slot {slot}, {b}", got, (number, (0,), (image, out), NOWHERE)


def check_cases(calls):
    """Both have the check's numbers with their places, before their own."""
    for b in SIZES:
        good = card(calls, b, {2: at(2, b, 0), 3: at(3, b, 1), 5: at(5, b, 2)})
        images = {f"{name}, back {back}": spoil(good, back) for (name, spoil), back in product(damages(b).items(), (0, 1))}
        images |= {"no bytes": b"", "8": filled(3 * b - 1), "10": filled(room(b) - 1)}
        for name, image in images.items():
            number, _, _, where = calls["card_check"](image, b)
            yield f"{name}, {b}, refused", number > 0, True
            for slot, place in ((0, 2**64 - 1), (2, 0)):
                got = calls["card_payload_place"](image, b, slot, place, 1)
                yield f"place, {name}, {b}", got, (number, (0,), (image,), where)
                got = calls["card_read_payload"](image, b, slot, place, b"\xee")
                yield f"reading, {name}, {b}", got, (number, (0,), (image, b"\xee"), where)
        for bad in BAD_SIZES:
            yield f"place, block size {bad}", calls["card_payload_place"](good, bad, 0, 0, 0), (1, (0,), (good,), NOWHERE)
            yield f"reading, block size {bad}", calls["card_read_payload"](b"", bad, 0, 0, b"\1"), (1, (0,), (b"", b"\1"), NOWHERE)


GROUPS = (place_cases, large_cases, read_cases, check_cases)
