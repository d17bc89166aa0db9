"""The card calls (document 01, The card calls)."""

from collections import namedtuple

import builder
import entries
import headers
import mbr
from sums import crc32
from units import ALL_32, NIL, Refused, call, length_of, need_block_size

SLOTS = 128
ARRAY = 16384
# Document 02, 5/13: the places of the card check's refusals, as card.h numbers them; 0 is none.
FRONT, BACK, DISK_GUID, SLOT = 1, 2, 3, 4

Card = namedtuple("Card", "last guid array usable used")


def shape(img, b):
    """Document 01, The card calls: 8, then 10 if N - 1 < 2A + 3. Gives N - 1, the backup's block."""
    need_block_size(b)
    last = headers.backup_block(length_of(img), b)
    if last < 2 * (ARRAY // b) + 3:
        raise Refused(10)
    return last


def laid_header(guid, last, primary, b):
    """Document 01, Lay: the headers as the builder gives them for backup N - 1."""
    return builder.built(builder.Settings(guid, last, 0, 0, SLOTS, entries.ENTRY, primary), 1, b)


def store_tables(img, guid, last, array, b):
    """Document 01, Lay and Put: both arrays, and both header blocks as lay would write them, with new sums."""
    for primary in (1, 0):
        header = laid_header(guid, last, primary, b)
        start = header.part_start * b
        img[start : start + ARRAY] = array
        headers.store_header(img, header, b)


@call(zero=(0,), lent=(0,))
def card_lay(img, b, guid):
    """Document 01, Lay: 8, 10; the protective MBR in bytes 0 to 511, both headers and zeroed arrays; nothing else changes."""
    last = shape(img, b)
    img[:512] = mbr.mbr_bytes(mbr.new_mbr(min(last, ALL_32)))
    store_tables(img, guid, last, bytes(ARRAY), b)
    return (0,)


def checked_table(img, last, primary, b):
    """Document 01, Card check: of one table 4, 5, then 16 if any field but GUID and sums differs from what lay would write,
    then 6. Document 02, 5/13: each says front or back."""
    step, where = ("front", (FRONT, 0)) if primary else ("back", (BACK, 0))
    header = headers.header_at(img, (1 if primary else last) * b, step, where)
    laid = laid_header(header.disk_guid, last, primary, b)
    if header._replace(crc32=0, crc32_parts=0) != laid:
        raise Refused(16, step, where=where)
    start = laid.part_start * b
    array = bytes(img[start : start + ARRAY])
    if crc32(array) != header.crc32_parts:
        raise Refused(6, step, where=where)
    return header, array


def wrong_entries(step):
    """Document 02, 5/13: "16 from the entries counted as front"."""
    return Refused(16, step, where=(FRONT, 0))


def checked_entries(array, first, last):
    """Document 01, Card check: 16 if an entry is neither all zero nor of non-nil type with first <= last inside the usable blocks, or two
    share a block. Document 02, 3/13: equal GUIDs in two used slots are a wrong layout too, nil ones among them."""
    used = {slot: entries.record_from(entries.entry_at(array, slot)) for slot in entries.present_slots(array)}
    for record in used.values():
        if not entries.used(record):
            raise wrong_entries("nil type with bytes")
        if record.last_lba < record.first_lba:
            raise wrong_entries("last below first")
        if record.first_lba < first or record.last_lba > last:
            raise wrong_entries("outside usable")
    ranges = sorted((record.first_lba, record.last_lba) for record in used.values())
    if any(one[1] >= two[0] for one, two in zip(ranges, ranges[1:])):
        raise wrong_entries("two share a block")
    if len({record.part_guid for record in used.values()}) < len(used):
        raise wrong_entries("two share a GUID")
    return used


def need_agreement(front, array, back, other):
    """Document 01, Card check: 17 if GUIDs or arrays differ. Document 02, 5/13: it says the disk GUID, first if both apply,
    or the first slot that differs, which is by its 128 bytes and not by its record."""
    slots = [slot for slot in range(1, SLOTS + 1) if entries.entry_at(array, slot) != entries.entry_at(other, slot)]
    if front.disk_guid != back.disk_guid:
        raise Refused(17, "disk GUID and arrays" if slots else "disk GUID", where=(DISK_GUID, 0))
    if slots:
        one, two = (entries.record_from(entries.entry_at(side, slots[0])) for side in (array, other))
        step = "bytes alone" if one == two else "several slots" if len(slots) > 1 else "one slot"
        raise Refused(17, step, where=(SLOT, slots[0]))


def check(img, b):
    """Document 01, Card check: 8; 10; the primary table; the backup table; 17 if GUIDs or arrays differ; 16 of the entries."""
    last = shape(img, b)
    front, array = checked_table(img, last, 1, b)
    back, other = checked_table(img, last, 0, b)
    need_agreement(front, array, back, other)
    usable = (front.first_usable, front.last_usable)
    return Card(last, front.disk_guid, array, usable, checked_entries(array, *usable))


def need_slot(slot):
    """Document 01, Numbers: 18 if a card's slot is outside 1..128."""
    if not 1 <= slot <= SLOTS:
        raise Refused(18)


def share_a_block(one, two):
    """Document 01, Numbers: 22 if put shares a block with another used slot."""
    return one.first_lba <= two.last_lba and two.first_lba <= one.last_lba


def need_own_blocks_and_guid(card, slot, record):
    """Document 01, Put: 22 with the lowest other slot that shares a block. Document 02, 3/13: 25 with the lowest other slot
    that has the GUID, after 22 as a whole and not slot by slot; "replacing a slot with its own GUID stays allowed"."""
    others = [(other, held) for other, held in sorted(card.used.items()) if other != slot]
    overlap = [other for other, held in others if share_a_block(held, record)]
    twins = [other for other, held in others if held.part_guid == record.part_guid]
    if overlap:
        raise Refused(22, "with 25 of a lower slot" if twins and twins[0] < overlap[0] else "", values=(overlap[0],))
    if twins:
        raise Refused(25, "nil" if record.part_guid == NIL else "not nil", values=(twins[0],))


def with_slot(array, slot, raw):
    """Document 01, Put and Clear: the array with the slot's 128 bytes; the other slots keep their bytes."""
    start = entries.ENTRY * (slot - 1)
    return array[:start] + raw + array[start + entries.ENTRY :]


def store_slot(img, card, slot, raw, b):
    """Document 01, Put and Clear: the slot's 128 bytes in both arrays; the header blocks are rewritten."""
    store_tables(img, card.guid, card.last, with_slot(card.array, slot, raw), b)


@call(zero=(0,), lent=(0,))
def card_check(img, b):
    """Document 01, Card check."""
    check(img, b)
    return (0,)


def to_put(img, b, slot, record):
    """Document 01, Put: the check, 18, 19, 20, 21, 22; document 02, 3/13: then 25; 7/13: then 28 if the reserved part isn't
    zero. The checked card, and the slot's new bytes; name units after the first zero are cleared."""
    card = check(img, b)
    need_slot(slot)
    if not entries.used(record):
        raise Refused(19)
    if record.last_lba < record.first_lba:
        raise Refused(20)
    if record.first_lba < card.usable[0] or record.last_lba > card.usable[1]:
        raise Refused(21, "first" if record.first_lba < card.usable[0] else "last")
    need_own_blocks_and_guid(card, slot, record)
    if record.reserved:
        raise Refused(28, "more than 45 bits" if record.reserved >> entries.RESERVED_BITS else "45 bits")
    return card, entries.record_bytes(record._replace(name=entries.cleared(record.name)))


def to_clear(img, b, slot):
    """Document 01, Clear: the check, 18. The checked card, and the slot's new bytes, which are zeros."""
    card = check(img, b)
    need_slot(slot)
    return card, bytes(entries.ENTRY)


@call(zero=(0,), lent=(0,))
def card_put(img, b, slot, record):
    """Document 01, Put: it replaces what the slot held, in both arrays."""
    card, raw = to_put(img, b, slot, record)
    store_slot(img, card, slot, raw, b)
    return (0,)


@call(zero=(0,), lent=(0,))
def card_clear(img, b, slot):
    """Document 01, Clear: an empty slot is accepted, its header blocks rewritten too."""
    card, raw = to_clear(img, b, slot)
    store_slot(img, card, slot, raw, b)
    return (0,)


def payload_start(img, b, slot, place, length):
    """Document 01, Payload write: the check, 18, 23, 24; the place counts from the partition's first byte. The place of these bytes in the image."""
    card = check(img, b)
    need_slot(slot)
    if slot not in card.used:
        raise Refused(23)
    record = card.used[slot]
    if place + length > (record.last_lba - record.first_lba + 1) * b:
        raise Refused(24)
    return record.first_lba * b + place


@call(zero=(0,), lent=(0, 4))
def card_write_payload(img, b, slot, place, data):
    """Document 01, Payload write: it stores the bytes there."""
    start = payload_start(img, b, slot, place, len(data))
    img[start : start + len(data)] = data
    return (len(data),)


@call(zero=(0,), lent=(0,))
def card_count_used(img, b):
    """Document 01, How much a contract has to say: the count is that of present entries."""
    return (len(check(img, b).used),)


@call(zero=(0,), lent=(0,))
def card_next_used(img, b, after):
    """card.h, card_next_used: the first used slot after a slot, or 0."""
    return (entries.next_after(sorted(check(img, b).used), after),)


@call(zero=(0, entries.ZERO), lent=(0,))
def card_read_slot(img, b, slot):
    """card.h, card_read_slot: the check, 18; whether the slot is present, and its record."""
    card = check(img, b)
    need_slot(slot)
    return (int(slot in card.used), card.used.get(slot, entries.ZERO))


@call(zero=(0, 0, entries.ZERO), lent=(0,))
def card_nth_used(img, b, k):
    """card.h, card_nth_used: the k-th used slot, counted from 0, ascending; where there is none, slot and record are zero."""
    found = sorted(check(img, b).used.items())
    return (1, *found[k]) if k < len(found) else (0, 0, entries.ZERO)


@call(zero=(0,), lent=(0, 2))
def card_list(img, b, out):
    """Document 01, Listing: the check, then 15; the present entries into the lent row, as in reading the array."""
    found = sorted(check(img, b).used.items())
    entries.fill_rows(out, found)
    return (len(found),)
