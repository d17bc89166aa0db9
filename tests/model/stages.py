"""Put, clear and repair in stages of one block store each (document 02, 6/13)."""

from collections import namedtuple

import card
import entries
import headers
import reader
from sums import crc32
from units import NIL, Refused, call, length_of, need_block_size

Update = namedtuple("Update", "next slot b len entry guid parts")
Repair = namedtuple("Repair", "next back b len guid parts")
NO_UPDATE = Update(0, 0, 0, 0, bytes(entries.ENTRY), NIL, 0)
NO_REPAIR = Repair(0, 0, 0, 0, NIL, 0)
UPDATE_STAGES = 4


def repair_stages(b):
    """Document 02, 6/13: zeros in the other header block, the array's blocks ascending, the header."""
    return 1 + card.ARRAY // b + 1


def array_start(last, primary, b):
    """Document 01, Lay: the block at which one copy's array starts."""
    return card.laid_header(NIL, last, primary, b).part_start


def store_block(img, block, data, b):
    """Document 02, 6/13: one block store."""
    img[block * b : (block + 1) * b] = data


def header_block(last, primary, guid, parts, b):
    """Document 02, 6/13: "the header that lay's layout has at that place", with the disk GUID and the array sum that were fixed at
    stage one. Document 01, Header: one whole block, zero after byte 91. The array in the image is not summed again."""
    header = card.laid_header(guid, last, primary, b)._replace(crc32_parts=parts)
    own_sum = headers.header_sum(headers.header_bytes(header))
    return headers.header_bytes(header._replace(crc32=own_sum)).ljust(b, b"\0")


def has_room(length, b):
    """Document 02, 6/13: whether an accepted stage one can have this length, so neither 8 nor 10."""
    return length // b - 1 >= 2 * (card.ARRAY // b) + 3


def need_next(img, b, stage, state, stages, slot=1):
    """Document 02, 6/13: after 1, 26 "if the stage isn't the next, the block size or image length isn't that of stage one, or the
    state handed in holds a slot, block size, length or stage number that no accepted stage one can lead to".

    The block size has passed 1, so a state's block size that is none is another one. After the last stage the state names one that
    does not exist. A repair has no slot. The image's bytes are not looked at.
    """
    causes = {
        "not the next stage": stage != state.next,
        "another block size": b != state.b,
        "another length": length_of(img) != state.len,
        "no such stage": not 2 <= state.next <= stages,
        "no such slot": not 1 <= slot <= card.SLOTS,
        "too short": not has_room(state.len, b),
    }
    found = [cause for cause, holds in causes.items() if holds]
    if found:
        raise Refused(26, found[0] if len(found) == 1 else "several")


def update_stage(img, stage, state):
    """Document 02, 6/13: "the back array's changed block, the back header, the front array's changed block, the front header". The
    rest of an array's block is as the image has it. Gives the state for the next stage."""
    last = headers.backup_block(length_of(img), state.b)
    primary = int(stage > 2)
    if stage in (2, 4):
        block = 1 if primary else last
        data = header_block(last, primary, state.guid, state.parts, state.b)
    else:
        blocks, place = divmod(entries.ENTRY * (state.slot - 1), state.b)
        block = array_start(last, primary, state.b) + blocks
        data = img[block * state.b : (block + 1) * state.b]
        data[place : place + entries.ENTRY] = state.entry
    store_block(img, block, data, state.b)
    return state._replace(next=stage + 1)


def stage_one(img, b, slot, tested):
    """Document 02, 6/13: "put's or clear's own at stage one", 22 and 25 with their slot; the state is zeros beside a refusal. What
    is fixed: the slot's bytes, the disk GUID and the new array's sum."""
    try:
        checked, raw = tested()
    except Refused as refusal:
        refusal.values = (*(refusal.values or (0,)), NO_UPDATE)
        raise
    parts = crc32(card.with_slot(checked.array, slot, raw))
    return (0, update_stage(img, 1, Update(1, slot, b, length_of(img), raw, checked.guid, parts)))


@call(zero=(0, NO_UPDATE), lent=(0,))
def card_start_put(img, b, slot, record):
    """Document 02, 6/13: stage one of a put."""
    return stage_one(img, b, slot, lambda: card.to_put(img, b, slot, record))


@call(zero=(0, NO_UPDATE), lent=(0,))
def card_start_clear(img, b, slot):
    """Document 02, 6/13: stage one of a clear."""
    return stage_one(img, b, slot, lambda: card.to_clear(img, b, slot))


@call(zero=(0, NO_UPDATE), lent=(0,))
def card_next_stage(img, b, stage, state):
    """Document 02, 6/13: stages two to four of put and clear alike."""
    need_block_size(b)
    need_next(img, b, stage, state, UPDATE_STAGES, state.slot)
    return (0, update_stage(img, stage, state))


def repair_stage(img, stage, state):
    """Document 02, 6/13: "zeros in the other header block, the array's blocks ascending, the header". The array's blocks are those of
    the good copy as the image has them. Gives the state for the next stage."""
    b = state.b
    last = headers.backup_block(length_of(img), b)
    other, good = (1, 0) if state.back else (0, 1)
    block = 1 if other else last
    if stage == 1:
        data = bytes(b)
    elif stage == repair_stages(b):
        data = header_block(last, other, state.guid, state.parts, b)
    else:
        block = array_start(last, other, b) + stage - 2
        source = (array_start(last, good, b) + stage - 2) * b
        data = img[source : source + b]
    store_block(img, block, data, b)
    return state._replace(next=stage + 1)


@call(zero=(0, NO_REPAIR), lent=(0,))
def card_start_repair(img, b):
    """Document 02, 6/13: "repair's stage one have 1, 8, 10, then 27". What is fixed: which copy is the good one, its disk GUID and its
    array's sum. Both good: the front is the one that the reader takes, and the back is written."""
    good = reader.taken(img, b)
    return (0, repair_stage(img, 1, Repair(1, good.back, b, length_of(img), good.guid, good.parts)))


@call(zero=(0, NO_REPAIR), lent=(0,))
def card_next_repair(img, b, stage, state):
    """Document 02, 6/13: the later stages of repair."""
    need_block_size(b)
    need_next(img, b, stage, state, repair_stages(b))
    return (0, repair_stage(img, stage, state))
