"""States to hand in at the later stages (document 02, 6/13): as an accepted stage leaves them, with one thing forged, or any."""

import images
import stages
from draws import BAD_BLOCK_SIZES, SLOTS
from units import ALL_64

# The last four are stages again if a call drops their high bits.
NO_STAGES = [0, 1, 5, 6, 7, 8, 35, 36, 37, 2**31, 2**32 - 1, 258, 65539, 2**31 + 2, 2**31 + 4]


def lengths(length, b):
    """Image lengths beside the given one: a byte or a block more or less, none, and the same again if high bits are dropped."""
    beside = [length - 1, length + 1, length - b, length + b, 0, 2**32 + length, 2**63 + length, 2**64 - 1]
    return [other for other in beside if 0 <= other <= ALL_64]


def forged(draw, state):
    """A state with one thing changed that 26 names, or with other bytes, GUID, sum or copy, which 26 does not name."""
    kind = draw.below(7)
    if kind == 0:
        return state._replace(next=draw.pick(NO_STAGES + [2, 3, 4]))
    if kind == 1:
        return state._replace(b=draw.pick([512, 4096, *BAD_BLOCK_SIZES]))
    if kind == 2:
        return state._replace(len=draw.pick(lengths(state.len, state.b)))
    if kind == 3:
        return state._replace(guid=draw.guid())
    if kind == 4:
        return state._replace(parts=draw.number(32))
    if isinstance(state, stages.Repair):
        return state._replace(back=draw.below(2))
    return state._replace(slot=draw.pick(SLOTS)) if kind == 5 else state._replace(entry=draw.data(128))


def nothing(state):
    """The zero state of its kind."""
    return stages.NO_REPAIR if isinstance(state, stages.Repair) else stages.NO_UPDATE


def handed_in(draw, b, state):
    """The arguments of a later stage with this state: mostly the stage that it names, at times another, and forged at times."""
    stage = state.next
    kind = draw.below(10)
    if kind < 3:
        state = forged(draw, state)
        stage = state.next if draw.chance(80) else stage
    elif kind == 3:
        stage = draw.pick((stage - 1, stage + 1, 1, 2, 3, 4, *NO_STAGES))
    elif kind == 4:
        state = nothing(state)
        stage = draw.pick((stage, 0, 1))
    return draw.block_size(b), max(stage, 0), state


def update(draw, image, b):
    """A state of an update as an accepted stage leaves it, for any slot and with the bytes of a record, of no entry or any."""
    raw = draw.pick((bytes(128), draw.data(128), *images.used_entries(image, b).values()))
    return stages.Update(draw.pick((2, 3, 4, 5)), 1 + draw.below(128), b, len(image), raw, draw.guid(), draw.number(32))


def repair(draw, image, b):
    """A state of a repair as an accepted stage leaves it."""
    most = stages.repair_stages(b) + 1
    following = draw.pick((2, 3, most - 1, most, 2 + draw.below(most - 1)))
    return stages.Repair(following, draw.below(2), b, len(image), draw.guid(), draw.number(32))
