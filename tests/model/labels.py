"""The maps' labels and the screen set (document 02, 13/13)."""

import struct
from collections import namedtuple

import card
import windows
from units import Refused, call, need_block_size

MARK = b"FBM"
VERSION = 1
LAYOUT = struct.Struct("<3sHHBBHH")
SIZE = LAYOUT.size

Label = namedtuple("Label", "year month day style sheet")
ZERO = Label(0, 0, 0, 0, 0)
NOTHING = (0, 0, 0, 0)


def need_date(label):
    """Document 02, 13/13: "Month is 1 to 12 and day 1 to 31, in any month", else 36; year, revision and sheet are any 16-bit numbers."""
    if not 1 <= label.month <= 12:
        raise Refused(36, "month")
    if not 1 <= label.day <= 31:
        raise Refused(36, "day")


def label_bytes(label):
    """Document 02, 13/13: "mark `FBM`, 16-bit version 1, 16-bit year, one byte each for month and day, 16-bit style revision, 16-bit sheet
    number, little-endian"."""
    return LAYOUT.pack(MARK, VERSION, *label)


def label_from(raw):
    """Document 02, 13/13: 34 BadMark, 35 UnknownVersion, 36 BadDate, in this order."""
    mark, version, *fields = LAYOUT.unpack(raw)
    if mark != MARK:
        raise Refused(34)
    if version != VERSION:
        raise Refused(35)
    label = Label(*fields)
    need_date(label)
    return label


def first_block(held, slot):
    """Document 02, 13/13: of a checked card 18, 23; the first block of the slot's partition."""
    card.need_slot(slot)
    if slot not in held.used:
        raise Refused(23)
    return held.used[slot].first_lba


def label_in(img, b, held, slot):
    """Document 02, 13/13: "Each map partition starts with a label of 13 bytes". A partition has at least one block, which holds it."""
    start = first_block(held, slot) * b
    return label_from(img[start : start + SIZE])


@call(zero=(ZERO,), lent=(0,))
def card_read_label(img, b, slot):
    """Document 02, 13/13: "Reading one label: card check, 18, 23, 34, 35, 36"."""
    return (label_in(img, b, card.check(img, b), slot),)


@call(zero=(0,), lent=(0,))
def card_write_label(img, b, slot, label):
    """Document 02, 13/13: "Writing: card check, 18, 23, 36"; "Label writes are payload writes", of mark, version 1 and what is given."""
    start = card.payload_start(img, b, slot, 0, SIZE)
    need_date(label)
    img[start : start + SIZE] = label_bytes(label)
    return (0,)


def slots_in(lent):
    """The slot numbers of a lent list."""
    return struct.unpack(f"<{len(lent) // 4}I", lent[: len(lent) // 4 * 4])


def need_list(listed, b):
    """Document 02, 13/13: "38 EmptyList after 1"."""
    need_block_size(b)
    if not listed:
        raise Refused(38)


def judged(listed, label_of):
    """Document 02, 13/13: "for each slot 18, 23, 34 .., 35 .., 36 .., 37 TwoDates", slot by slot in the list's order. A refused set gives "the first slot
    in the list's order that fails or differs from the first", as the list has it; an accepted one gives its date and revision. The sheet number is
    not compared. "A repeated slot is judged as one": it has one label, wherever the list names it.
    """
    first = None
    for slot in listed:
        try:
            label = label_of(slot)
        except Refused as refusal:
            raise Refused(refusal.number, refusal.step, values=(slot, *NOTHING)) from None
        first = first or label
        if label[:3] != first[:3] or label.style != first.style:
            raise Refused(37, "date" if label[:3] != first[:3] else "style revision", values=(slot, *NOTHING))
    return 0, *first[:4]


@call(zero=(0, *NOTHING), lent=(0, 2))
def card_judge(img, b, slots):
    """Document 02, 13/13: 1, 38, the card check's, then slot by slot."""
    listed = slots_in(slots)
    need_list(listed, b)
    held = card.check(img, b)
    return judged(listed, lambda slot: label_in(img, b, held, slot))


def checked(head, tail, blocks, b):
    """Document 02, 10/13: the card check over windows, after 1, 3, 8, 10 and 32."""
    windows.need_card(head, tail, blocks, b)
    with windows.whole(head, tail, blocks, b) as img:
        return card.check(img, b)


@call(zero=(ZERO,), lent=(0, 1, 5))
def card_window_read_label(head, tail, blocks, b, slot, raw):
    """A label that is handed in, of a card by its windows: the partition's first bytes are not in them. After 23, 2 if there are fewer than 13
    bytes; the ones after the 13th are not looked at."""
    first_block(checked(head, tail, blocks, b), slot)
    if len(raw) < SIZE:
        raise Refused(2)
    return (label_from(raw[:SIZE]),)


@call(zero=(0, *NOTHING), lent=(0, 1, 4, 5))
def card_window_judge(head, tail, blocks, b, slots, raw):
    """A screen set whose labels are handed in, 13 bytes for each place of the list: 1, 38, the windows' numbers, the card check's, 2 if there are not
    that many bytes, then place by place. "A repeated slot is judged as one": its label is the one at its first place, and the bytes at its later places
    are not looked at."""
    listed = slots_in(slots)
    need_list(listed, b)
    held = checked(head, tail, blocks, b)
    if len(raw) != SIZE * len(listed):
        raise Refused(2)

    def label_of(slot):
        first_block(held, slot)
        return label_from(raw[SIZE * listed.index(slot) :][:SIZE])

    return judged(listed, label_of)
