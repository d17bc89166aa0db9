"""Cases with known answers of document 02, 6/13: put and clear in four stages."""

from itertools import combinations

import collide
import cuts
import maps
from entries import record_bytes, record_from
from known import own_guid, record
from known_copies import FREE, SIZES, at, card, damages, filled, first_usable, harmless, room, with_entry
from labels import Label
from stages import NO_UPDATE
from sums import crc32
from units import NIL, NOWHERE, guid_bytes

KINDS = ("put", "put over", "put again", "clear", "clear an empty one", "put with an equal sum", "clear with an equal sum")
ZERO_SUM = 0xAB54D286


def named(name, cases):
    """Cases with a name in front."""
    return ((f"{name}, {case}", got, due) for case, got, due in cases)


def equal_put(image, b, slot, where=FREE - 1):
    """A record for a slot, which is not what the slot holds, with a GUID that leaves the array's sum as it is."""
    array = cuts.array_of(image, b)
    given = at(77, b, where)._replace(name=(65,) + (0,) * 35)
    return record_from(collide.entry_with_sum(array, slot, record_bytes(given), crc32(array)))


def prepared(calls, b, slot, kind, odd=0):
    """A card with used neighbours of a slot, and a call of put or clear of the named kind for it."""
    others = {n: at(n, b, where) for where, n in enumerate(n for n in (slot - 1, slot + 1) if 1 <= n <= 128)}
    image = card(calls, b, others, odd=odd)
    held = at(slot, b, 2)
    if kind == "clear with an equal sum":
        image = calls["card_put"](image, b, slot, equal_put(image, b, slot))[2][0]
    elif kind not in ("put", "clear an empty one"):
        image = calls["card_put"](image, b, slot, held)[2][0]
    if kind.startswith("clear"):
        return image, "clear", (slot,)
    new = {"put": held, "put over": at(200, b, 3, 2), "put again": held}.get(kind) or equal_put(image, b, slot)
    return image, "put", (slot, new)


def update_cases(calls):
    """Each kind of update at the edges of the array's blocks, and each slot with one kind: all that is promised of each cut."""
    for b in SIZES:
        edges = [(slot, kind) for slot in (1, 4, 5, 32, 33, 128) for kind in KINDS]
        for slot, kind in edges + [(slot, KINDS[slot % len(KINDS)]) for slot in range(1, 129)]:
            image, call, args = prepared(calls, b, slot, kind, odd=slot % 3)
            run = cuts.update(calls, image, b, call, *args)
            name = f"{kind} of {slot}, {b}"
            yield f"{name}, accepted", run.plain[0], 0
            sums = {crc32(cuts.array_of(cut, b)) for cut in (image, run.plain[2][0])}
            yield f"{name}, sums", len(sums), 1 if "equal" in kind or kind in ("put again", "clear an empty one") else 2
            same = kind in ("put again", "clear an empty one")
            yield f"{name}, arrays", cuts.array_of(image, b) == cuts.array_of(run.plain[2][0], b), same
            yield from named(name, cuts.update_promises(calls, run, slot in (1, 128)))


def sum_cases(calls):
    """The sums in the state and in both headers of a laid card on which an empty slot is cleared: that of 16,384 zeros."""
    for b in SIZES:
        run = cuts.update(calls, card(calls, b, {}), b, "clear", 7)
        yield f"zeros, {b}", [state.parts for state in run.states], [ZERO_SUM] * 4
        for cut, back in ((run.cuts[2], 1), (run.cuts[4], 0)):
            yield f"zeros, {b}, back {back}", cuts.header_of(cut, b, back)[88:92], ZERO_SUM.to_bytes(4, "little")


def foreign_cases(calls):
    """What the check lets pass stays or goes as with the plain call: bytes after the headers, flags and names of other slots."""
    for b in SIZES:
        held = {2: at(2, b, 0), 3: at(3, b, 1), 5: at(5, b, 2)}
        for name, change in harmless(b).items():
            image = change(change(card(calls, b, held), 0), 1)
            for call, *args in (("put", 2, at(2, b, 3)), ("put", 4, at(4, b, 3)), ("put", 3, at(3, b, 3)), ("clear", 2), ("clear", 3)):
                run = cuts.update(calls, image, b, call, *args)
                yield f"{name}, {b}, accepted", run.plain[0], 0
                yield from named(f"{name}, {call} of {args[0]}, {b}", cuts.update_promises(calls, run))
        for odd in (0, 1, b - 1):
            run = cuts.update(calls, card(calls, b, {}, free=1, odd=odd), b, "put", 128, at(1, b, 0))
            yield from named(f"the smallest card and {odd}, {b}", cuts.update_promises(calls, run))


def refused_puts(b):
    """Arguments that a card with slots 2, 3 and 5 refuses, and the number with its slot, in put's order."""
    low, good = first_usable(b), at(9, b, 3)
    return (
        (18, 0, (0, good)),
        (18, 0, (129, good._replace(part_type_guid=NIL))),
        (19, 0, (9, good._replace(part_type_guid=NIL, last_lba=0))),
        (20, 0, (9, good._replace(last_lba=low + 2, reserved=1))),
        (21, 0, (9, record(2, low - 1, low + 3))),
        (21, 0, (9, record(2, low, low + FREE))),
        (22, 3, (9, record(2, low + 1, low + 4))),
        (22, 2, (9, at(2, b, 0)._replace(reserved=1))),
        (25, 5, (9, at(5, b, 3)._replace(reserved=1))),
        (25, 2, (5, at(2, b, 2))),
        (28, 0, (9, good._replace(reserved=1))),
        (28, 0, (2, at(2, b, 0)._replace(reserved=2**45))),
    )


def refused_cases(calls):
    """Stage one has put's or clear's own refusals, 22 and 25 with their slot; the state beside them is zeros."""
    for b in SIZES:
        image = card(calls, b, {2: at(2, b, 0), 3: at(3, b, 1), 5: at(5, b, 2)})
        for number, slot, args in refused_puts(b):
            run = cuts.update(calls, image, b, "put", *args)
            yield f"put {args!r:.40}", (run.first[0], run.first[1][0]), (number, slot)
            yield from named(f"put {args!r:.40}", cuts.update_promises(calls, run))
        for slot in (0, 129, 257, 2**31 + 2, 2**32 - 1):
            run = cuts.update(calls, image, b, "clear", slot)
            yield f"clear of {slot}", run.first[0], 18
            yield from named(f"clear of {slot}", cuts.update_promises(calls, run))
        hurt = {f"{name}, back {back}": spoil(image, back) for name, spoil in damages(b).items() for back in (0, 1)}
        hurt |= {"no bytes": b"", "8": filled(3 * b - 1), "10": filled(room(b) - 1), "zeros": bytes(room(b))}
        for name, spoilt in hurt.items():
            for size in (b, 0, 2**32 + b):
                for call, *args in (("put", 9, at(9, b, 3)), ("put", 0, at(9, b, 3)), ("clear", 2)):
                    run = cuts.update(calls, spoilt, size, call, *args)
                    yield f"{call}, {name}: refused", run.first[0] != 0 and (run.first[0] == 1) == (size != b), True
                    yield from named(f"{call}, {name}", cuts.update_promises(calls, run))


def plain_calls(b):
    """The plain card calls that begin with the check, with arguments that a card with slots 2 and 3 accepts."""
    return {
        "card_check": (b,),
        "card_put": (b, 128, at(128, b, 5)),
        "card_clear": (b, 2),
        "card_start_put": (b, 128, at(128, b, 5)),
        "card_start_clear": (b, 2),
        "card_write_payload": (b, 2, 0, b"map"),
        "card_payload_place": (b, 2, 0, 3),
        "card_read_payload": (b, 2, 0, b"map"),
        "card_write_label": (b, 2, Label(2024, 5, 17, 3, 1)),
        "card_count_used": (b,),
        "card_next_used": (b, 0),
        "card_read_slot": (b, 2),
        "card_nth_used": (b, 0),
        "card_list": (b, bytes(128 * 136)),
        "card_free_runs": (b, bytes(8 * 129), bytes(8 * 129)),
        "card_map_make": (b,),
        "card_map_put": (b, 128, at(128, b, 5), maps.NONE),
        "card_map_clear": (b, 2, maps.NONE),
    }


def between_cases(calls):
    """Between the stages the plain card calls answer by the card check, stage one among them, with its place."""
    for b in SIZES:
        held = {2: at(2, b, 0), 3: at(3, b, 1)}
        image = card(calls, b, held)
        updates = {"put": (4, at(4, b, 2)), "the same bytes": (2, held[2]), "an equal sum": (4, equal_put(image, b, 4, 2))}
        good, back, slot, front = (0, NOWHERE), (6, (2, 0)), (17, (4, 4)), (6, (1, 0))
        due = {"put": (good, back, slot, front, good), "the same bytes": (good,) * 5, "an equal sum": (good, slot, slot, good, good)}
        for name, args in updates.items():
            run = cuts.update(calls, image, b, "put", *args)
            for after, (cut, answer) in enumerate(zip(run.cuts, due[name])):
                for call, given in plain_calls(b).items():
                    got = calls[call](cut, *given)
                    yield f"{name}, {call} after {after}, {b}", (got[0], got[3]), answer
                    if answer != good:
                        yield f"{name}, {call} after {after}, {b}: unchanged", got[2][0] == cut, True


def alone_cases(calls):
    """Each stage alone: it looks at the state, the block size and the length, and at no byte of the image but its own block."""
    for b in SIZES:
        for slot in (1, 6, 37, 128):
            image = card(calls, b, {2: at(2, b, 0)}, odd=3)
            run = cuts.update(calls, image, b, "put", slot, at(slot, b, 2))
            for blank in (bytes(len(image)), filled(len(image)), image):
                for stage, block in enumerate(cuts.update_blocks(image, b, slot)[1:], 2):
                    state = run.states[stage - 2]
                    due = bytearray(blank)
                    if stage == 3:
                        place = 2 * b + 128 * (slot - 1)
                        due[place : place + 128] = state.entry
                    else:
                        due[block * b : (block + 1) * b] = cuts.laid_block(image, b, stage == 2, guid_bytes(state.guid), state.parts)
                    got = calls["card_next_stage"](blank, b, stage, state)
                    yield f"stage {stage} alone, slot {slot}, {b}", got, (0, (0, state._replace(next=stage + 1)), (bytes(due),), NOWHERE)


def order_cases(calls):
    """Stores that were lost or came in another order. A copy is good if both of its stores are there or neither, or by equal sums; so
    {1,3}, {1,4}, {2,3} and {2,4} alone leave 27, and the order 1, 2, 4, 3 shows the old table at its third store if sums are equal."""
    for b in SIZES:
        for kind in ("put", "put over", "clear", "put with an equal sum", "clear with an equal sum"):
            image, call, args = prepared(calls, b, 6, kind)
            run = cuts.update(calls, image, b, call, *args)
            tables = [cuts.rows_of(cuts.array_of(cut, b)) for cut in (image, run.plain[2][0])]
            for stored in (chosen for count in range(5) for chosen in combinations(range(1, 5), count)):
                now = run.cuts[1] if 1 in stored else image
                for stage in stored:
                    now = calls["card_next_stage"](now, b, stage, run.states[stage - 2])[2][0] if stage > 1 else now
                back, back_header, front, front_header = (stage in stored for stage in range(1, 5))
                if front == front_header or "equal" in kind:
                    due = (0, 0, tables[front])
                else:
                    due = (0, 1, tables[back]) if back == back_header else (27, 0, b"")
                yield f"{kind}, stores {stored}, {b}", cuts.shown(calls, now, b), due


def again_cases(calls):
    """A state is a value that can be handed in again: 26 looks at the state, the block size and the length alone."""
    for b in SIZES:
        image = card(calls, b, {2: at(2, b, 0)})
        run = cuts.update(calls, image, b, "put", 9, at(9, b, 2))
        for after in (2, 3, 4):
            for stage in range(2, after + 1):
                got = calls["card_next_stage"](run.cuts[after], b, stage, run.states[stage - 2])
                yield f"stage {stage} again after {after}", got, (0, (0, run.states[stage - 1]), (run.cuts[after],), NOWHERE)
        for after, number, where in ((1, 6, (2, 0)), (2, 17, (4, 9)), (3, 6, (1, 0))):
            got = calls["card_start_put"](run.cuts[after], b, 9, at(9, b, 2))
            yield f"stage one again after {after}", got, (number, (0, NO_UPDATE), (run.cuts[after],), where)
        cleared = calls["card_clear"](run.cuts[4], b, 9)[2][0]
        late = calls["card_next_stage"](cleared, b, 3, run.states[1])[2][0]
        yield "an old stage three after a clear", calls["card_check"](late, b)[0], 6
        yield "an old stage three after a clear: shown", cuts.shown(calls, late, b), (0, 1, cuts.rows_of(cuts.array_of(image, b)))
        other = calls["card_put"](run.cuts[4], b, 5, at(5, b, 3))[2][0]
        for stage in (2, 4):
            number, (_, state), (other,) = calls["card_next_stage"](other, b, stage, run.states[stage - 2])[:3]
            yield f"an old stage {stage} after a put", (number, state), (0, run.states[stage - 1])
        yield "an old state after a put: shown", cuts.shown(calls, other, b), (27, 0, b"")
        same = cuts.update(calls, image, b, "put", 2, at(2, b, 0))
        now = calls["card_put"](same.cuts[1], b, 5, at(5, b, 3))[2][0]
        put = cuts.rows_of(cuts.array_of(now, b))
        for stage, number, due in ((2, 6, (0, 0, put)), (3, 6, (0, 0, put)), (4, 6, (27, 0, b""))):
            now = calls["card_next_stage"](now, b, stage, same.states[stage - 2])[2][0]
            yield f"a put between stages, after {stage}", (calls["card_check"](now, b)[0], cuts.shown(calls, now, b)), (number, due)


def kept_cases(calls):
    """The rest of an array's block is as the image has it at that stage, at stage three as the front has it."""
    for b in SIZES:
        image = card(calls, b, {2: at(2, b, 0)})
        run = cuts.update(calls, image, b, "put", 3, at(3, b, 2))
        for back in (0, 1):
            changed = with_entry(run.cuts[2], b, back, 2, 100, b"changed", False)
            now = calls["card_next_stage"](changed, b, 3, run.states[1])[2][0]
            place = cuts.copy_blocks(image, b, 0)[1] * b + 256
            yield f"the rest of the block, back {back}, {b}", now, changed[:place] + record_bytes(at(3, b, 2)) + changed[place + 128 :]
        yield f"another disk GUID, {b}", calls["card_start_clear"](card(calls, b, {}, guid=own_guid(8)), b, 1)[1][1].guid, own_guid(8)


GROUPS = (update_cases, sum_cases, foreign_cases, refused_cases, between_cases, alone_cases, order_cases, again_cases, kept_cases)
