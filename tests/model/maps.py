"""The slot map beside the table (document 02, 11/13)."""

from collections import namedtuple

import card
from units import Refused, call

SlotMap = namedtuple("SlotMap", "low high")
NONE = SlotMap(0, 0)
HALF = 64


def bits(words):
    """The slots whose bit a map has: 1 to 64 in the low word, 65 to 128 in the high one, least bit first (card.h)."""
    return {slot for slot in range(1, card.SLOTS + 1) if words[(slot - 1) // HALF] >> (slot - 1) % HALF & 1}


def words(slots):
    """The map with the bits of these slots."""
    return SlotMap(*(sum(1 << (slot - 1) % HALF for slot in slots if (slot - 1) // HALF == word) for word in (0, 1)))


def mapped(work, handed):
    """Document 02, 11/13: "A refused call hands the map back as it came"."""
    try:
        work()
    except Refused as refusal:
        raise Refused(refusal.number, refusal.step, values=(*(refusal.values or (0,)), handed), where=refusal.where) from None


@call(zero=(NONE,), lent=(0,))
def card_map_make(img, b):
    """Document 02, 11/13: "128 bits, one for a used slot, made from a checked card"; the refusals are the check's, with their places."""
    return (words(card.check(img, b).used),)


@call(zero=(0, NONE), lent=(0,))
def card_map_put(img, b, slot, record, handed):
    """Document 02, 11/13: carried through put by value; the bit is set whatever the map was."""
    mapped(lambda: card.card_put.__wrapped__(img, b, slot, record), handed)
    return 0, words(bits(handed) | {slot})


@call(zero=(0, NONE), lent=(0,))
def card_map_clear(img, b, slot, handed):
    """Document 02, 11/13: carried through clear by value."""
    mapped(lambda: card.card_clear.__wrapped__(img, b, slot), handed)
    return 0, words(bits(handed) - {slot})


@call(zero=(0,))
def card_map_lowest_free(handed):
    """Document 02, 11/13: the lowest free slot; "33 TableFull when a free slot is asked for and all 128 are used"."""
    free = set(range(1, card.SLOTS + 1)) - bits(handed)
    if not free:
        raise Refused(33)
    return (min(free),)


@call(zero=(0,))
def card_map_used(handed):
    """Document 02, 11/13: the number of slots in use."""
    return (len(bits(handed)),)
