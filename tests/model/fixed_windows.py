"""Cases with known answers of document 02, 10/13: the order of the numbers over windows, lay, put and clear, the listing and what is read, on cards of
68 and 12 blocks up to the last count whose bytes fit 64 bits."""

import struct

from entries import ROW, ZERO, row_bytes
from known import GUID, record
from known_copies import SIZES, filled, first_usable
from known_windows import CARDS, LENGTHS, ROOMY, block_zero, changed, first_calls, later_calls, refusal, refused_last, some_slots, windows_of
from maps import SlotMap
from units import NIL, NOWHERE

BAD_SIZES = (0, 1, 511, 513, 1024, 4095, 4097, 2**32 + 512, 2**63 + 4096, 2**64 - 1)
FRONT, BACK = (1, 0), (2, 0)
LAID = {"card_window_lay"}
READERS = {name for name in first_calls(512) if "reader" in name or "repair" in name}


def count_cases(calls):
    """1; 3 if the count times B passes 64 bits, also where the product without its high bits would be a card's; 8 and 10 by the count: all of them with
    any windows, and before what a call refuses by itself."""
    for b in SIZES:
        room = {512: 68, 4096: 12}[b]
        largest = {512: 2**55 - 1, 4096: 2**52 - 1}[b]
        counts = {number: 3 for number in (largest + 1, largest + 2, largest + 1 + room, 2**63, 2**63 + room, 2**64 - 1)}
        counts |= {0: 8, 1: 8, 2: 8, 3: 10, 4: 10, room - 1: 10}
        good = windows_of(b, {512: 75, 4096: 19}[b], {})
        for name, rest in refused_last(b).items():
            for windows in (good, (b"", b""), (filled(LENGTHS[b][0]), filled(LENGTHS[b][1]))):
                for bad in BAD_SIZES:
                    for blocks in (0, room, largest + 1, 2**64 - 1):
                        yield f"{name}, block size {bad}, {blocks} blocks", *refusal(calls, name, windows, blocks, bad, rest, 1)
                for blocks, number in counts.items():
                    yield f"{name}, {blocks} blocks of {b}", *refusal(calls, name, windows, blocks, b, rest, number)


def wrong_lengths(b):
    """Pairs of windows of which one or both are not exactly as long as they are due."""
    head, tail = LENGTHS[b]
    other = LENGTHS[4608 - b]
    heads = [(length, tail) for length in (0, 1, head - b, head - 1, head + 1, head + b, tail, other[0])]
    tails = [(head, length) for length in (0, 1, tail - b, tail - 1, tail + 1, tail + b, head, other[1])]
    return [pair for pair in (*heads, *tails, (0, 0), (tail, head), (head - 1, tail + 1), other) if pair != (head, tail)]


def length_cases(calls):
    """32 if either window is a byte or a block too short or too long, after 8 and 10 and before the card check and the call's own numbers; the windows'
    bytes are not looked at before."""
    for b in SIZES:
        for blocks in (blocks for size, blocks in CARDS if size == b):
            for head, tail in wrong_lengths(b):
                windows = filled(head), filled(tail)
                for name, rest in refused_last(b).items():
                    yield f"{name}, {blocks} of {b}, windows of {head} and {tail}", *refusal(calls, name, windows, blocks, b, rest, 32)
        head, tail = windows_of(b, {512: 75, 4096: 19}[b], {})
        for name, rest in first_calls(b).items():
            yield f"{name}, the head a byte short", *refusal(calls, name, (head[:-1], tail), {512: 75, 4096: 19}[b], b, rest, 32)


def lay_cases(calls):
    """Lay: the fields of both headers, written down above; bytes 0 to 511 of block 0 alone; every other byte of the windows."""
    for (b, blocks), (last, high, start, size) in CARDS.items():
        given = tuple(filled(length) for length in LENGTHS[b])
        head, tail = windows_of(b, blocks, {})
        got = calls["card_window_lay"](*given, blocks, b, GUID)
        name = f"lay of {blocks} blocks of {b}"
        yield name, got, (0, (0,), (block_zero(b, size) + head[b:], tail), NOWHERE)
        head, tail = got[2]
        yield f"{name}, front", struct.unpack_from("<4Q", head, b + 24), (1, last, first_usable(b), high)
        yield f"{name}, back", struct.unpack_from("<4Q", tail, len(tail) - b + 24), (last, 1, first_usable(b), high)
        yield f"{name}, arrays", struct.unpack_from("<Q", head, b + 72) + struct.unpack_from("<Q", tail, len(tail) - b + 72), (2, start)
        yield f"{name}, block 0", (struct.unpack_from("<I", head, 458), head[512:b]), ((size,), filled(b)[512:])
        yield f"{name}, the check", calls["card_window_check"](head, tail, blocks, b), (0, (0,), (head, tail), NOWHERE)


def put_cases(calls):
    """Put and clear up to the last usable block: the windows' bytes after each of them."""
    for b, blocks in ROOMY:
        low, high = first_usable(b), CARDS[b, blocks][1]
        held, windows = {}, windows_of(b, blocks, {})
        for slot, new in ((1, record(1, low)), (128, record(2, high)), (5, record(3, low + 1, high - 1)), (5, record(4, high - 1)), (128, record(2, high))):
            held |= {slot: new}
            got = calls["card_window_put"](*windows, blocks, b, slot, new)
            windows = windows_of(b, blocks, held)
            yield f"put of {slot}, {blocks} blocks of {b}", got, (0, (0,), windows, NOWHERE)
        for slot in (1, 77, 128, 5):
            held.pop(slot, None)
            got = calls["card_window_clear"](*windows, blocks, b, slot)
            windows = windows_of(b, blocks, held)
            yield f"clear of {slot}, {blocks} blocks of {b}", got, (0, (0,), windows, NOWHERE)
        whole = record(9, low, high)
        got = calls["card_window_put"](*windows, blocks, b, 64, whole)
        yield f"all usable blocks, {blocks} blocks of {b}", got, (0, (0,), windows_of(b, blocks, {64: whole}), NOWHERE)


def refused_puts(b, blocks):
    """Records that a card with some_slots refuses, in put's order: number and slot of the answer, slot and record."""
    low, high = first_usable(b), CARDS[b, blocks][1]
    good = record(9, high)
    return (
        (18, 0, 0, good),
        (18, 0, 129, good._replace(part_type_guid=NIL)),
        (19, 0, 9, good._replace(part_type_guid=NIL, last_lba=0)),
        (20, 0, 9, record(9, high, high - 1)),
        (21, 0, 9, record(9, low - 1)),
        (21, 0, 9, record(1, high, high + 1)),
        (21, 0, 9, record(1, low, 2**64 - 1)),
        (22, 1, 9, record(64, low, high)._replace(reserved=1)),
        (22, 64, 9, record(1, high - 1, high)),
        (22, 128, 64, record(1, high - 3, high)),
        (25, 64, 9, record(64, high)._replace(reserved=1)),
        (28, 0, 9, good._replace(reserved=1)),
    )


def refused_cases(calls):
    """Put's and clear's own refusals, plain and as stage one, on large cards too; 22 and 25 with their slot."""
    for b, blocks in ROOMY:
        windows = windows_of(b, blocks, some_slots(b, blocks))
        for number, slot, at_slot, held in refused_puts(b, blocks):
            for name in ("card_window_put", "card_window_start_put"):
                got, due = refusal(calls, name, windows, blocks, b, (at_slot, held), number)
                yield f"{name} {number}, {blocks} blocks of {b}", got, (*due[:1], (slot, *due[1][1:]), *due[2:])
        for slot in (0, 129, 257, 2**32 - 1):
            for name in ("card_window_clear", "card_window_start_clear", "card_window_read_slot", "card_window_reader_slot"):
                yield f"{name} of {slot}", *refusal(calls, name, windows, blocks, b, (slot,), 18)


def read_cases(calls):
    """What is read of a card: count, next, slot, the k-th, rows, runs and map. The windows stay."""
    for b, blocks in ROOMY:
        low, high = first_usable(b), CARDS[b, blocks][1]
        held = some_slots(b, blocks)
        windows = windows_of(b, blocks, held)
        rows = b"".join(row_bytes(slot, held[slot]) for slot in sorted(held))
        runs = [struct.pack("<4Q", *row) for row in ((low, low + 2, high - 2, high), (1, 1, 1, 1))]
        tail = filled(8)
        for name, rest, values, lent in (
            ("count_used", (), (3,), ()),
            ("next_used", (0,), (1,), ()),
            ("next_used", (64,), (128,), ()),
            ("next_used", (2**32 - 1,), (0,), ()),
            ("read_slot", (128,), (1, held[128]), ()),
            ("read_slot", (2,), (0, ZERO), ()),
            ("nth_used", (1,), (1, 64, held[64]), ()),
            ("nth_used", (3,), (0, 0, ZERO), ()),
            ("list", (bytes(3 * ROW) + tail,), (3,), (rows + tail,)),
            ("reader_list", (bytes(3 * ROW) + tail,), (3,), (rows + tail,)),
            ("free_runs", (bytes(32) + tail, bytes(32)), (4,), (runs[0] + tail, runs[1])),
            ("map_make", (), (SlotMap(1 | 1 << 63, 1 << 63),), ()),
        ):
            got = calls[f"card_window_{name}"](*windows, blocks, b, *rest)
            yield f"{name} {rest!r:.20}, {blocks} blocks of {b}", got, (0, values, (*windows, *lent), NOWHERE)
        for name, rest in (("list", (bytes(3 * ROW - 1),)), ("reader_list", (bytes(3 * ROW - 1),)), ("free_runs", (bytes(24), bytes(32)))):
            yield f"{name} without room", *refusal(calls, f"card_window_{name}", windows, blocks, b, rest, 15)
        empty = windows_of(b, blocks, {})
        got = calls["card_window_free_runs"](*empty, blocks, b, bytes(8), bytes(8))
        due = struct.pack("<Q", low), struct.pack("<Q", high - low + 1)
        yield f"an empty card of {blocks} blocks of {b}", got, (0, (1,), (*empty, *due), NOWHERE)


def damaged(b, blocks):
    """Windows with one thing wrong, and the check's number and place of each."""
    held = some_slots(b, blocks)
    low, high = first_usable(b), CARDS[b, blocks][1]
    head, tail = windows_of(b, blocks, held)
    for side, key, where, spoil in (("front", "front", FRONT, 0), ("back", "back", BACK, 1)):
        place = (b, -b)[spoil]
        windows = [head, tail]
        windows[spoil] = changed(windows[spoil], place, b"e")
        yield f"signature, {side}", tuple(windows), 4, where
        for number, odd in ((5, {"off": 1}), (5, {"stated": 93}), (16, {"own": 5}), (16, {"usable": (low, high + 1)}), (16, {"reserved": 1})):
            yield f"{odd}, {side}", windows_of(b, blocks, held, **{key: odd}), number, where
        for place in ((2 * b, len(head) - 1), (0, 16383))[spoil]:
            windows = [head, tail]
            windows[spoil] = changed(windows[spoil], place, b"\1")
            yield f"array byte {place}, {side}", tuple(windows), 6, where
    yield "disk GUID", windows_of(b, blocks, held, back={"guid": b"other disk guid."}, other={}), 17, (3, 0)
    yield "slot 64", windows_of(b, blocks, held, other=held | {64: record(64, high)}), 17, (4, 64)
    yield "slot 128 of the back alone", windows_of(b, blocks, {}, other={128: held[128]}), 17, (4, 128)
    yield "outside usable", windows_of(b, blocks, held | {7: record(7, high, high + 1)}), 16, FRONT
    yield "below usable", windows_of(b, blocks, held | {7: record(7, low - 1)}), 16, FRONT
    yield "shared block", windows_of(b, blocks, held | {7: record(7, low + 3)}), 16, FRONT
    yield "twins", windows_of(b, blocks, held | {7: record(64, low)}), 16, FRONT
    yield "last below first", windows_of(b, blocks, held | {7: record(7, high, high - 1)}), 16, FRONT


def damage_cases(calls):
    """Every call but lay and the reader's gives the card check's number and place, with all else zero and nothing changed; another count than
    the card's own is a wrong layout."""
    for b, blocks in ROOMY:
        checked = {name: rest for name, rest in refused_last(b).items() if name not in LAID | READERS}
        for what, windows, number, where in damaged(b, blocks):
            for name, rest in checked.items():
                yield f"{name}, {what}, {blocks} of {b}", *refusal(calls, name, windows, blocks, b, rest, number, where)
        good = windows_of(b, blocks, some_slots(b, blocks))
        for count in (blocks - 1, blocks + 1):
            if count * b < 2**64:
                yield f"{count} blocks are stated", *refusal(calls, "card_window_check", good, count, b, (), 16, FRONT)
        for name, rest in first_calls(b).items():
            yield f"{name} of a good card, {blocks} of {b}", calls[name](*good, blocks, b, *rest)[::3], (0, NOWHERE)
        for name, rest in later_calls(b, blocks).items():
            yield f"{name} of a good card, {blocks} of {b}", calls[name](*good, blocks, b, *rest)[::3], (0, NOWHERE)


GROUPS = (count_cases, length_cases, lay_cases, put_cases, refused_cases, read_cases, damage_cases)
