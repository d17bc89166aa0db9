"""Cases with known answers of document 02, 6/13: what the later stages refuse, 1 and then 26, and what they take."""

import cuts
from known import own_guid
from known_copies import SIZES, at, card, filled, room
from stages import NO_REPAIR, NO_UPDATE
from units import NOWHERE, guid_bytes

BAD_SIZES = (0, 1, 511, 513, 1024, 4095, 4097, 2**32 + 512, 2**32 + 4096, 2**63 + 512, 2**64 - 1)
NO_SLOTS = (0, 129, 130, 257, 384, 65537, 2**31 + 1, 2**32 - 1)
# The last four are stages again if a call drops their high bits.
NO_STAGES = (0, 1, 2**31, 2**32 - 1, 258, 65539, 2**31 + 2, 2**31 + 4)
REFUSED = {"card_next_stage": (0, NO_UPDATE), "card_next_repair": (0, NO_REPAIR)}
NOTHING = {"card_next_stage": NO_UPDATE, "card_next_repair": NO_REPAIR}


def updates(calls, b):
    """An update of a card: its call for later stages, its images and states, and its stages."""
    run = cuts.update(calls, card(calls, b, {2: at(2, b, 0)}), b, "put", 9, at(9, b, 2))
    return "card_next_stage", run.cuts, run.states, 4


def repairs(calls, b):
    """A repair of a card, alike."""
    run = cuts.repair(calls, card(calls, b, {2: at(2, b, 0)}), b)
    return "card_next_repair", run.cuts, run.states, 2 + cuts.ARRAY // b


def number_of(calls, call, image, b, stage, state):
    """The number of a later stage; a refusal that changes a byte or hands back more than zeros, and a place, are told instead."""
    number, values, (after,), where = calls[call](image, b, stage, state)
    if where != NOWHERE or number and (values, after) != (REFUSED[call], image):
        return "not as it came", number, values, where
    return number


def both(calls):
    """The later stages of updates and of repairs, in both block sizes."""
    for b in SIZES:
        for made in (updates, repairs):
            yield (b, *made(calls, b))


def stage_cases(calls):
    """The stage must be the one that the state names, and there must be such a stage."""
    for b, call, images, states, last in both(calls):
        stages = (*range(last + 4), *NO_STAGES)
        for after, state in enumerate(states, 1):
            name = f"{call} of {b}, state after {after}"
            yield f"{name}, next", state.next, after + 1
            for stage in stages if after in (1, 2, 3, last - 1, last) else (after, after + 1, after + 2):
                due = 0 if stage == after + 1 <= last else 26
                yield f"{name}, stage {stage}", number_of(calls, call, images[after], b, stage, state), due
        for stage in stages:
            due = 0 if 2 <= stage <= last else 26
            forged = states[0]._replace(next=stage)
            yield f"{call} of {b}, forged stage {stage}", number_of(calls, call, images[1], b, stage, forged), due


def size_cases(calls):
    """1 for the block size given; 26 if it is not the state's, whichever of the two is the other one."""
    for b, call, images, states, last in both(calls):
        other = 4608 - b
        for after, state in ((1, states[0]), (last - 1, states[last - 2]), (last, states[last - 1])):
            name, stage, image = f"{call} of {b}, state after {after}", after + 1, images[after]
            due = 26 if after == last else 0
            for bad in BAD_SIZES:
                yield f"{name}, size {bad}", number_of(calls, call, image, bad, stage, state), 1
                yield f"{name}, size {bad} in both", number_of(calls, call, image, bad, stage, state._replace(b=bad)), 1
                yield f"{name}, size {bad} in the state", number_of(calls, call, image, b, stage, state._replace(b=bad)), 26
            yield f"{name}, its own size", number_of(calls, call, image, b, stage, state), due
            yield f"{name}, the other size", number_of(calls, call, image, other, stage, state), 26
            yield f"{name}, the other size in the state", number_of(calls, call, image, b, stage, state._replace(b=other)), 26
        large = filled(max(room(512), room(4096)))
        state = states[0]._replace(len=len(large))
        yield f"{call}, long enough for {b}", number_of(calls, call, large, b, 2, state), 0
        yield f"{call}, long enough for {other} too", number_of(calls, call, large, other, 2, state._replace(b=other)), 0
        small = filled(room(512))
        due = 0 if b == 512 else 26
        yield f"{call}, long enough for 512 alone", number_of(calls, call, small, b, 2, states[0]._replace(len=len(small))), due


def length_cases(calls):
    """26 if the length is not the state's to the byte, or if it is and no card has it: never 8 or 10."""
    for b, call, images, states, _ in both(calls):
        image, state, name = images[1], states[0], f"{call} of {b}"
        for other in (b"", image[:-1], image[:-b], image + b"\0", image + bytes(b - 1), image + bytes(b), filled(room(b))):
            yield f"{name}, {len(other)} bytes", number_of(calls, call, other, b, 2, state), 26
        for length in (0, 1, len(image) - 1, len(image) + 1, len(image) + b, 2**32 + len(image), 2**63 + len(image), 2**64 - 1):
            yield f"{name}, {length} in the state", number_of(calls, call, image, b, 2, state._replace(len=length)), 26
        for length in (0, 1, b, 2 * b, 3 * b - 1, 3 * b, room(b) - b, room(b) - 1):
            yield f"{name}, {length} in both", number_of(calls, call, filled(length), b, 2, state._replace(len=length)), 26
        for length in (room(b), room(b) + 1, room(b) + b - 1, room(b) + b):
            yield f"{name}, {length} in both", number_of(calls, call, filled(length), b, 2, state._replace(len=length)), 0
        ragged = images[0] + b"\0"
        first = calls["card_start_repair"](ragged, b) if "repair" in call else calls["card_start_put"](ragged, b, 9, at(9, b, 2))
        number, (_, state), (now,) = first[:3]
        yield f"{name}, one odd byte", (number, state.len), (0, len(ragged))
        yield f"{name}, one odd byte, the same again", number_of(calls, call, now, b, 2, state), 0
        yield f"{name}, one odd byte dropped", number_of(calls, call, now[:-1], b, 2, state), 26
        yield f"{name}, another odd byte", number_of(calls, call, now + b"\0", b, 2, state), 26


def slot_cases(calls):
    """A slot that no put or clear accepts is 26 at each later stage; any other slot is taken."""
    for b in SIZES:
        call, images, states, _ = updates(calls, b)
        for state, image in zip(states[:3], images[1:]):
            for slot in NO_SLOTS:
                name = f"slot {slot} at stage {state.next}, {b}"
                yield name, number_of(calls, call, image, b, state.next, state._replace(slot=slot)), 26
            for slot in (1, 2, 127, 128):
                name = f"slot {slot} at stage {state.next}, {b}"
                yield name, number_of(calls, call, image, b, state.next, state._replace(slot=slot)), 0


def zero_cases(calls):
    """The zero state is 26 at each stage and with any image, after 1."""
    for b, call, images, _, last in both(calls):
        for image in (b"", b"\0", bytes(room(b)), images[0], images[-1]):
            for stage in (*range(last + 3), *NO_STAGES):
                yield f"{call}, zero state, stage {stage}", number_of(calls, call, image, b, stage, NOTHING[call]), 26
            for bad in BAD_SIZES:
                yield f"{call}, zero state, size {bad}", number_of(calls, call, image, bad, 0, NOTHING[call]), 1
                yield f"{call}, zero state, stage 2, size {bad}", number_of(calls, call, image, bad, 2, NOTHING[call]), 1


def due_store(image, b, block, data):
    """The image after one block store."""
    return image[: block * b] + data + image[(block + 1) * b :]


def forged_update_cases(calls):
    """Forged slot bytes, disk GUID and sum are taken and stored: 26 names four things, and these are not among them."""
    for b in SIZES:
        call, images, states, _ = updates(calls, b)
        guid, parts = own_guid(4711), 0x89ABCDEF
        for stage, back in ((2, 1), (4, 0)):
            state = states[stage - 2]._replace(guid=guid, parts=parts, entry=filled(128))
            block = cuts.copy_blocks(images[0], b, back)[0]
            due = due_store(images[stage - 1], b, block, cuts.laid_block(images[0], b, back, guid_bytes(guid), parts))
            got = calls[call](images[stage - 1], b, stage, state)
            yield f"forged GUID and sum, stage {stage}, {b}", got, (0, (0, state._replace(next=stage + 1)), (due,), NOWHERE)
        for slot in (1, 9, 128):
            state = states[1]._replace(slot=slot, entry=filled(128), guid=guid, parts=0)
            place = 2 * b + 128 * (slot - 1)
            due = images[2][:place] + filled(128) + images[2][place + 128 :]
            got = calls[call](images[2], b, 3, state)
            yield f"forged bytes in slot {slot}, {b}", got, (0, (0, state._replace(next=4)), (due,), NOWHERE)


def forged_repair_cases(calls):
    """Forged disk GUID, sum and copy are taken too; the copy says from where to where a stage stores."""
    for b in SIZES:
        call, images, states, last = repairs(calls, b)
        image = images[1]
        for back in (0, 1):
            for stage in (2, 3, last - 1, last):
                state = states[stage - 2]._replace(back=back, guid=own_guid(4711), parts=0x89ABCDEF)
                header, array = cuts.copy_blocks(image, b, not back)
                block, data = header, cuts.laid_block(image, b, not back, guid_bytes(own_guid(4711)), 0x89ABCDEF)
                if stage < last:
                    block, source = array + stage - 2, (cuts.copy_blocks(image, b, back)[1] + stage - 2) * b
                    data = image[source : source + b]
                got = calls[call](image, b, stage, state)
                due = (0, (0, state._replace(next=stage + 1)), (due_store(image, b, block, data),), NOWHERE)
                yield f"forged copy {back}, stage {stage}, {b}", got, due


GROUPS = (stage_cases, size_cases, length_cases, slot_cases, zero_cases, forged_update_cases, forged_repair_cases)
