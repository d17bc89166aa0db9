"""The reader of a pulled card (document 02, 6/13)."""

from collections import namedtuple

import card
import entries
from units import Refused, call

Good = namedtuple("Good", "back guid parts used")


def good_copy(img, last, primary, b):
    """Document 02, 6/13: whether one copy's "header, layout, array and entries pass"; each of them is a step of the card check,
    and the entries are judged by the usable blocks of lay's layout."""
    header, array = card.checked_table(img, last, primary, b)
    used = card.checked_entries(array, header.first_usable, header.last_usable)
    return Good(int(not primary), header.disk_guid, header.crc32_parts, used)


def taken(img, b):
    """Document 02, 6/13: 1, 8, 10, then 27 when neither copy passes. "The reader takes the front if its header, layout, array and
    entries pass, else the back by the same tests". 27 says no place; its step here is what the back failed."""
    last = card.shape(img, b)
    failed = ""
    for primary in (1, 0):
        try:
            return good_copy(img, last, primary, b)
        except Refused as refusal:
            failed = f"{refusal.number} {refusal.step}"
    raise Refused(27, failed)


@call(zero=(0,), lent=(0,))
def card_reader_copy(img, b):
    """Document 02, 6/13: whether the copy that the reader takes is the back."""
    return (taken(img, b).back,)


@call(zero=(0,), lent=(0,))
def card_reader_count(img, b):
    """Document 02, 6/13: how many present entries the reader shows."""
    return (len(taken(img, b).used),)


@call(zero=(0,), lent=(0,))
def card_reader_next(img, b, after):
    """Document 02, 6/13: the first used slot after a slot that the reader shows, or 0."""
    return (entries.next_after(sorted(taken(img, b).used), after),)


@call(zero=(0, entries.ZERO), lent=(0,))
def card_reader_slot(img, b, slot):
    """Document 02, 6/13: whether the reader shows a slot as present, and its record; 18 last."""
    used = taken(img, b).used
    card.need_slot(slot)
    return (int(slot in used), used.get(slot, entries.ZERO))


@call(zero=(0,), lent=(0, 2))
def card_reader_list(img, b, out):
    """Document 02, 6/13: "the reader lists into a lent row, with 15 last"."""
    found = sorted(taken(img, b).used.items())
    entries.fill_rows(out, found)
    return (len(found),)
