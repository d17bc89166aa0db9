"""Cases with known answers of document 02, 6/13: which copy the reader takes, and what it shows."""

import cuts
from entries import ROW, ZERO, row_bytes
from known import own_guid
from known_copies import SIZES, at, card, damages, filled, harmless, room, spliced, with_header
from stages import NO_REPAIR
from units import NIL, NOWHERE

REFUSED = {"card_reader_copy": (0,), "card_reader_count": (0,), "card_reader_next": (0,), "card_reader_slot": (0, ZERO), "card_reader_list": (0,)}


def slots(b):
    """The slots of the front copy."""
    return {2: at(2, b, 0), 3: at(3, b, 1), 5: at(5, b, 2)}


def other_slots(b):
    """The slots of a back copy that differs from the front: one more, and one on other blocks."""
    return slots(b) | {3: at(3, b, 3, 2), 128: at(9, b, 5)}


def rows(held):
    """The rows of some slots."""
    return b"".join(row_bytes(slot, held[slot]) for slot in sorted(held))


def two_tables(calls, b, odd=0):
    """A card whose copies are both good and differ in slots and disk GUID."""
    front, back = card(calls, b, slots(b), odd=odd), card(calls, b, other_slots(b), odd=odd, guid=own_guid(99))
    return spliced(front, back, b)


def due_of(b, front, back):
    """What the reader shows if the front is good, or the back, or neither is."""
    return (0, 0, rows(slots(b))) if front else (0, 1, rows(other_slots(b))) if back else (27, 0, b"")


def copy_cases(calls):
    """The front if it passes, else the back by the same tests, else 27: each damage of the one with each of the other."""
    for b in SIZES:
        image = two_tables(calls, b)
        ways = {"none": lambda image, back: image, **damages(b)}
        for front, spoil_front in ways.items():
            for back, spoil_back in ways.items():
                hurt = spoil_back(spoil_front(image, 0), 1)
                due = due_of(b, front == "none", back == "none")
                yield f"reader of {b}, front {front}, back {back}", cuts.shown(calls, hurt, b), due


def harmless_cases(calls):
    """What no test of a copy looks at: the bytes after a header, reserved flags, units after a name's end, its own disk GUID."""
    for b in SIZES:
        image = card(calls, b, slots(b))
        for name, change in harmless(b).items():
            for back in (0, 1):
                changed = change(image, back)
                due = cuts.rows_of(cuts.array_of(changed, b, 0))
                yield f"reader of {b}, {name}, back {back}", cuts.shown(calls, changed, b), (0, 0, due)
                changed = with_header(changed, b, 0, 0, b"e", False)
                due = cuts.rows_of(cuts.array_of(changed, b, 1))
                yield f"reader of {b}, {name}, back {back}, front spoilt", cuts.shown(calls, changed, b), (0, 1, due)
        wiped = b"\xff" * b + image[b:]
        yield f"reader of {b}, block 0", cuts.shown(calls, wiped, b), (0, 0, rows(slots(b)))


def shown_cases(calls):
    """By value and into a lent row, from the front and from the back: count, next, slot with 18 last, row with 15 last."""
    for b in SIZES:
        image = two_tables(calls, b, odd=b - 1)
        for back, held in ((0, slots(b)), (1, other_slots(b))):
            if back:
                image = with_header(image, b, 0, 0, bytes(b), False)
            name = f"reader of {b}, back {back}"
            yield f"{name}, copy", calls["card_reader_copy"](image, b), (0, (back,), (image,), NOWHERE)
            yield f"{name}, count", calls["card_reader_count"](image, b), (0, (len(held),), (image,), NOWHERE)
            for after in (*range(131), 257, 2**31, 2**32 - 1):
                due = min((slot for slot in held if slot > after), default=0)
                yield f"{name}, next after {after}", calls["card_reader_next"](image, b, after), (0, (due,), (image,), NOWHERE)
            for slot in range(1, 129):
                due = (1, held[slot]) if slot in held else (0, ZERO)
                yield f"{name}, slot {slot}", calls["card_reader_slot"](image, b, slot), (0, due, (image,), NOWHERE)
            for slot in (0, 129, 130, 257, 2**31 + 2, 2**32 - 1):
                yield f"{name}, slot {slot}", calls["card_reader_slot"](image, b, slot), (18, (0, ZERO), (image,), NOWHERE)
            exact = len(held) * ROW
            for length in (exact, exact + 1, exact + ROW, 128 * ROW):
                out = filled(length)
                got = calls["card_reader_list"](image, b, out)
                yield f"{name}, row of {length}", got, (0, (len(held),), (image, rows(held) + out[exact:]), NOWHERE)
            for length in (0, ROW, exact - ROW, exact - 1):
                out = filled(length)
                yield f"{name}, row of {length}", calls["card_reader_list"](image, b, out), (15, (0,), (image, out), NOWHERE)
        empty = card(calls, b, {})
        yield f"no slots of {b}", calls["card_reader_list"](empty, b, b""), (0, (0,), (empty, b""), NOWHERE)


def arguments(b):
    """The arguments of the reader's calls after the image, with a slot and a row that would be refused last."""
    return {"card_reader_copy": (b,), "card_reader_count": (b,), "card_reader_next": (b, 0), "card_reader_slot": (b, 0), "card_reader_list": (b, b"")}


def refused_images(calls):
    """Images, block sizes and the number that they get: 1, 8, 10, 27, in this order."""
    for b in SIZES:
        good = two_tables(calls, b)
        spoilt = damages(b)["twins"](damages(b)["array sum"](good, 0), 1)
        for bad in (0, 1, 511, 513, 1024, 4095, 4097, 2**32 + b, 2**63 + b, 2**64 - 1):
            yield f"block size {bad}", good, bad, 1
            yield f"block size {bad}, no bytes", b"", bad, 1
        for length, number in ((0, 8), (1, 8), (3 * b - 1, 8), (3 * b, 10), (room(b) - b, 10), (room(b) - 1, 10), (room(b), 27)):
            yield f"{length} bytes", filled(length), b, number
            yield f"{length} bytes of zero", bytes(length), b, number
        yield "neither is good", spoilt, b, 27
        yield "one byte fewer", spoilt[:-1], b, 27
        twins = damages(b)["twins"]
        yield "twins", twins(twins(card(calls, b, slots(b)), 0), 1), b, 27


def refused_cases(calls):
    """The reader's refusals come before 18 and 15, with every other field zero and no place; the plain calls' answer to twins is 16."""
    for name, image, b, number in refused_images(calls):
        for call, args in arguments(b).items():
            lent = tuple(arg for arg in (image, *args) if isinstance(arg, bytes))
            yield f"{call}, {name}", calls[call](image, *args), (number, REFUSED[call], lent, NOWHERE)
        yield f"card_start_repair, {name}", calls["card_start_repair"](image, b), (number, (0, NO_REPAIR), (image,), NOWHERE)
        if name == "twins":
            yield f"card_check, {name}", calls["card_check"](image, b)[0], 16
            yield f"card_start_put, {name}", calls["card_start_put"](image, b, 5, at(9, b, 2))[0], 16
            yield f"card_start_clear, {name}", calls["card_start_clear"](image, b, 5)[0], 16


def smallest_cases(calls):
    """The smallest card, and odd bytes after its last block: the back is found from the whole blocks."""
    for b in SIZES:
        for odd in (0, 1, b - 1):
            image = card(calls, b, {128: at(1, b, 0)}, free=1, odd=odd)
            due = rows({128: at(1, b, 0)})
            yield f"smallest of {b}, {odd}", cuts.shown(calls, image, b), (0, 0, due)
            yield f"smallest of {b}, {odd}, back", cuts.shown(calls, damages(b)["zeros"](image, 0), b), (0, 1, due)
        image = card(calls, b, {1: at(1, b, 0)._replace(part_guid=NIL)}, free=1)
        yield f"one nil GUID of {b}", cuts.shown(calls, image, b)[0], 0


GROUPS = (copy_cases, harmless_cases, shown_cases, refused_cases, smallest_cases)
