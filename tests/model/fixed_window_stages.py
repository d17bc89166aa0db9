"""Cases with known answers of document 02, 10/13: the reader over windows and the part that it chooses, the staged forms and repair. What each stage
leaves is written down by UEFI's tables, on cards up to the last count whose bytes fit 64 bits."""

import zlib

import cuts
from entries import ROW, row_bytes
from fixed_windows import BAD_SIZES, damaged, wrong_lengths
from known import GUID, record
from known_copies import SIZES, at, card, filled, first_usable
from known_windows import CARDS, LENGTHS, ROOMY, changed, later_calls, packed, refusal, some_slots, windows_of
from stages import Repair, Update
from units import NOWHERE

PARTS = {0: lambda head, tail, b: head[2 * b : 2 * b + cuts.ARRAY], 1: lambda head, tail, b: tail[: cuts.ARRAY]}


def taken_cases(calls):
    """The reader takes the head's array if it passes, else the tail's; the part at 2B of the head, or at 0 of the tail, is then what it lists."""
    for b, blocks in ROOMY:
        held = some_slots(b, blocks)
        other = {1: held[1], 100: record(7, CARDS[b, blocks][1])}
        head, tail = windows_of(b, blocks, held, other=other)
        spoilt_head, spoilt_tail = changed(head, b, b"e"), changed(tail, -1, b"\1")
        for name, windows, back in (
            ("both good", (head, tail), 0),
            ("the head alone", (head, changed(tail, 0, b"\1")), 0),
            ("dirt after the back header", (spoilt_head, spoilt_tail), 1),
            ("the tail alone", (spoilt_head, tail), 1),
            ("the tail alone, no bytes in the head", (bytes(len(head)), tail), 1),
        ):
            name, slots = f"{name}, {blocks} of {b}", other if back else held
            rows = b"".join(row_bytes(slot, slots[slot]) for slot in sorted(slots))
            yield f"{name}, copy", calls["card_window_reader_copy"](*windows, blocks, b), (0, (back,), windows, NOWHERE)
            yield f"{name}, the part", PARTS[back](*windows, b), packed(slots)
            yield f"{name}, count", calls["card_window_reader_count"](*windows, blocks, b), (0, (len(slots),), windows, NOWHERE)
            yield f"{name}, next", calls["card_window_reader_next"](*windows, blocks, b, 1), (0, (100 if back else 64,), windows, NOWHERE)
            slot = 100 if back else 128
            yield f"{name}, slot", calls["card_window_reader_slot"](*windows, blocks, b, slot), (0, (1, slots[slot]), windows, NOWHERE)
            out = filled(len(rows) + ROW)
            got = calls["card_window_reader_list"](*windows, blocks, b, out)
            yield f"{name}, rows", got, (0, (len(slots),), (*windows, rows + out[len(rows) :]), NOWHERE)
        neither = changed(head, -1, b"\1"), changed(tail, 5, b"\1")
        for name, rest in (("copy", ()), ("count", ()), ("next", (0,)), ("slot", (0,)), ("list", (b"",))):
            yield f"{name} of neither", *refusal(calls, f"card_window_reader_{name}", neither, blocks, b, rest, 27)
        yield "repair of neither", *refusal(calls, "card_window_start_repair", neither, blocks, b, (), 27)


def spoilt_cases(calls):
    """Each damage of the front alone is passed over, and each of the back alone is not seen; entries that fail in both are 27."""
    for b, blocks in ROOMY:
        for name, windows, number, where in damaged(b, blocks):
            due = (0, (int(where == (1, 0)),)) if number in (4, 5, 6, 17) or "{" in name else (27, (0,))
            yield f"reader, {name}, {blocks} of {b}", calls["card_window_reader_copy"](*windows, blocks, b), (*due, windows, NOWHERE)


def updates(b, blocks):
    """A put and a clear of a card with some_slots at the edges of the array's blocks: its name, arguments, slot, new slots and new bytes."""
    held = some_slots(b, blocks)
    for slot in (1, 4, 5, 32, 33, 64, 127, 128):
        new = record(200 + slot, first_usable(b))
        yield "put", (slot, new), slot, held | {slot: new}, packed({1: new})[:128]
        yield "clear", (slot,), slot, {n: kept for n, kept in held.items() if n != slot}, bytes(128)


def staged(old, new, b, slot):
    """The windows before and after each of the four stages: the tail's changed block, its last one, the head's changed block, its block 1."""
    at_block = 128 * (slot - 1) // b * b
    head, tail = old
    one = head, changed(tail, at_block, new[1][at_block : at_block + b])
    two = head, changed(one[1], -b, new[1][-b:])
    start = 2 * b + at_block
    three = changed(head, start, new[0][start : start + b]), two[1]
    return old, one, two, three, (changed(three[0], b, new[0][b : 2 * b]), two[1])


def update_cases(calls):
    """Four stages: the windows and the state after each; after the fourth, what the plain call leaves."""
    for b, blocks in ROOMY:
        old = windows_of(b, blocks, some_slots(b, blocks))
        for kind, args, slot, slots, raw in updates(b, blocks):
            new = windows_of(b, blocks, slots)
            cards = staged(old, new, b, slot)
            name = f"{kind} of {slot}, {blocks} of {b}"
            yield f"{name}, plain", calls[f"card_window_{kind}"](*old, blocks, b, *args), (0, (0,), new, NOWHERE)
            yield f"{name}, at the end", cards[4], new
            state = Update(2, slot, b, blocks * b, raw, GUID, zlib.crc32(packed(slots)))
            got = calls[f"card_window_start_{kind}"](*old, blocks, b, *args)
            yield f"{name}, stage one", got, (0, (0, state), cards[1], NOWHERE)
            for stage in (2, 3, 4):
                got = calls["card_window_next_stage"](*cards[stage - 1], blocks, b, stage, state)
                state = state._replace(next=stage + 1)
                yield f"{name}, stage {stage}", got, (0, (0, state), cards[stage], NOWHERE)
            yield f"{name}, stage 5", *refusal(calls, "card_window_next_stage", cards[4], blocks, b, (5, state), 26)


def repair_cases(calls):
    """Repair in both directions: zeros in the other header block, the array's blocks ascending, the header."""
    for b, blocks in ROOMY:
        held, last = some_slots(b, blocks), 2 + cuts.ARRAY // b
        good = windows_of(b, blocks, held)
        for back in (0, 1):
            windows = [filled(len(window)) for window in good]
            windows[back] = good[back]
            header, start = (-b, 0) if not back else (b, 2 * b)
            state = Repair(1, back, b, blocks * b, GUID, zlib.crc32(packed(held)))
            for stage in range(1, last + 1):
                data, place = bytes(b), header
                if 1 < stage < last:
                    data, place = packed(held)[(stage - 2) * b : (stage - 1) * b], start + (stage - 2) * b
                elif stage == last:
                    data = good[1 - back][header:][:b]
                args = () if stage == 1 else (stage, state)
                call = "card_window_start_repair" if stage == 1 else "card_window_next_repair"
                got = calls[call](*windows, blocks, b, *args)
                windows[1 - back] = changed(windows[1 - back], place, data)
                state = state._replace(next=stage + 1)
                yield f"repair, back {back}, stage {stage}, {blocks} of {b}", got, (0, (0, state), tuple(windows), NOWHERE)
            due = (good[0] if not back else windows[0][:b] + good[0][b:], good[1])
            yield f"repair, back {back}, at the end, {blocks} of {b}", tuple(windows), due
            got = refusal(calls, "card_window_next_repair", tuple(windows), blocks, b, (last + 1, state), 26)
            yield f"repair, back {back}, one stage more", *got


def later_cases(calls):
    """Later stages: 1, 26 by the whole-number product, then 32. A count whose product passes 64 bits is 26 and never 3, also where the product
    without its high bits is the state's length; a count too small for a card is 26 and never 8 or 10."""
    for b, blocks in ROOMY:
        windows, empty, room = windows_of(b, blocks, {}), (b"", b""), {512: 68, 4096: 12}[b]
        for name, (stage, state) in later_calls(b, blocks).items():
            short = (windows[0][:-1], windows[1])
            for bad in BAD_SIZES:
                yield f"{name}, block size {bad}", *refusal(calls, name, empty, 2**64 - 1, bad, (9, state), 1)
            for given in (windows, short, empty):
                for count in (0, 1, 2, 3, room - 1, blocks - 1, blocks + 1, 2**64 // b, 2**64 // b + blocks, 2**64 - 1):
                    yield f"{name}, {count} for {blocks} of {b}", *refusal(calls, name, given, count, b, (stage, state), 26)
                yield f"{name}, stage 3", *refusal(calls, name, given, blocks, b, (3, state), 26)
                yield f"{name}, the other size", *refusal(calls, name, given, blocks, 4608 - b, (stage, state), 26)
                for count in (0, 1, 2, 3, room - 1):
                    forged = state._replace(len=count * b)
                    yield f"{name}, {count} in both", *refusal(calls, name, given, count, b, (stage, forged), 26)
                for length in (blocks * b - 1, blocks * b + 1, 0, 2**64 - 1):
                    forged = state._replace(len=length)
                    yield f"{name}, {length} in the state", *refusal(calls, name, given, blocks, b, (stage, forged), 26)
                yield f"{name}, 2**64 // B blocks", *refusal(calls, name, given, 2**64 // b, b, (stage, state._replace(len=0)), 26)
            for head, tail in wrong_lengths(b):
                yield f"{name}, windows of {head} and {tail}", *refusal(calls, name, (filled(head), filled(tail)), blocks, b, (stage, state), 32)
            yield f"{name}, room for a card", calls[name](*windows, room, b, stage, state._replace(len=room * b))[0], 0


def both_forms_cases(calls):
    """A state of the whole form serves over windows of that many blocks, and the other way round; with odd bytes after the last block no count has
    the length that the state names."""
    for b in SIZES:
        image = card(calls, b, {2: at(2, b, 0)})
        blocks, (h, t) = len(image) // b, LENGTHS[b]
        for first, later, args in (("start_put", "next_stage", (9, at(9, b, 2))), ("start_clear", "next_stage", (2,)), ("start_repair", "next_repair", ())):
            whole = calls[f"card_{first}"](image, b, *args)
            over = calls[f"card_window_{first}"](image[:h], image[-t:], blocks, b, *args)
            yield f"{first}, {b}", over, (*whole[:2], (whole[2][0][:h], whole[2][0][-t:]), NOWHERE)
            state, now = whole[1][1], whole[2][0]
            one = calls[f"card_{later}"](now, b, 2, state)
            two = calls[f"card_window_{later}"](now[:h], now[-t:], blocks, b, 2, state)
            yield f"{later} with the other's state, {b}", two, (0, one[1], (one[2][0][:h], one[2][0][-t:]), NOWHERE)
            odd = calls[f"card_{first}"](image + b"\0", b, *args)[1][1]
            yield f"{later} with an odd byte, {b}", *refusal(calls, f"card_window_{later}", over[2], blocks, b, (2, odd), 26)


GROUPS = (taken_cases, spoilt_cases, update_cases, repair_cases, later_cases, both_forms_cases)
