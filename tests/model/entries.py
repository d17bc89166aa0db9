"""Partition entries (document 01, Partition entry; document 02, 7/13): records, lengths, device writes, reading the array."""

import struct
from collections import namedtuple

from sums import crc32
from units import NIL, Refused, call, fits, guid_bytes, guid_from, need_block_size, need_inside

ENTRY = 128
ROW = 136
UNITS = 36
GREATEST_SIZE = 4096
RESERVED_BITS = 45
LAYOUT = struct.Struct("<16s16sQQQ36H")

Partition = namedtuple(
    "Partition",
    "part_type_guid part_guid first_lba last_lba required no_block_io legacy_bootable reserved owner name",
)
Flags = namedtuple("Flags", "required no_block_io legacy_bootable reserved owner")
ZERO = Partition(NIL, NIL, 0, 0, 0, 0, 0, 0, 0, (0,) * UNITS)


def cleared(name):
    """Document 01, Partition entry: the units after the first zero unit are cleared."""
    end = name.index(0) if 0 in name else UNITS
    return name[:end] + (0,) * (UNITS - end)


def split_flags(bits):
    """Document 02, 7/13: bits 0, 1 and 2 as yes or no, the reserved bits 3 to 47 and the owner's 48 to 63 as numbers."""
    return bits & 1, bits >> 1 & 1, bits >> 2 & 1, bits >> 3 & (1 << RESERVED_BITS) - 1, bits >> 48


def joined_flags(record):
    """Document 02, 7/13: the 64 bits of an entry; 28 if the reserved part needs more than 45 bits."""
    if record.reserved >> RESERVED_BITS:
        raise Refused(28)
    low = record.required | record.no_block_io << 1 | record.legacy_bootable << 2
    return low | record.reserved << 3 | record.owner << 48


def record_from(raw):
    """Document 01, Partition entry: the places of the fields; reading clears the name after its first zero unit.
    Document 02, 7/13: the flags have names; reading never gives 28."""
    kind, guid, first, last, bits, *name = LAYOUT.unpack(raw)
    return Partition(guid_from(kind), guid_from(guid), first, last, *split_flags(bits), cleared(tuple(name)))


def record_bytes(record):
    """Document 01, Partition entry: the record's 128 bytes; the name's 36 units are written as they are. Document 02,
    7/13: 28 if the flags cannot be joined."""
    ranges = (record.first_lba, record.last_lba, joined_flags(record))
    return LAYOUT.pack(guid_bytes(record.part_type_guid), guid_bytes(record.part_guid), *ranges, *record.name)


def cut_or_filled(record, n):
    """Document 01, Partition entry: the record's 128 bytes cut or zero-filled to n. Document 02, 7/13: 28, whatever n is."""
    return record_bytes(record)[:n].ljust(n, b"\0")


def row_bytes(slot, record):
    """card.h, card_row: the slot as a 64-bit number, then the record's 128 bytes as an entry has them, flags joined."""
    return struct.pack("<Q", slot) + record_bytes(record)


def fill_rows(out, found):
    """Document 01, Reading the array: 15 if there are more present entries than lent rows; the rows after the last one are unchanged."""
    if len(out) < ROW * len(found):
        raise Refused(15)
    rows = b"".join(row_bytes(slot, record) for slot, record in found)
    out[: len(rows)] = rows


@call(zero=(0,) * 5)
def gpt_flags_of(bits):
    """Document 02, 7/13: the flags in 64 bits; reading never gives 28."""
    return split_flags(bits)


@call(zero=(0,))
def gpt_flags_bits(flags):
    """Document 02, 7/13: the 64 bits of flags; 28 if the reserved part needs more than 45 bits."""
    return (joined_flags(flags),)


@call(zero=(ZERO,), lent=(0,))
def gpt_entry_from_bytes(data):
    """Document 01, Partition entry: reading; fewer bytes than 128 give 2."""
    need_inside(data, 0, ENTRY)
    return (record_from(data[:ENTRY]),)


@call(zero=(), lent=(0,))
def gpt_entry_to_bytes(out, record):
    """Document 01, Partition entry: "Writing fills a lent buffer of n bytes". Document 02, 7/13: 28; the answer is the
    number alone."""
    out[:] = cut_or_filled(record, len(out))
    return ()


def used(record):
    """Document 01, Partition entry: a record is used if its type is not all zero."""
    return record.part_type_guid != NIL


@call(zero=(0,))
def gpt_is_used(record):
    """Document 01, Partition entry: is_used."""
    return (int(used(record)),)


def sectors(record):
    """Document 01, Partition entry, sectors_len: 20 if last < first, 3 if the count passes 64 bits."""
    if record.last_lba < record.first_lba:
        raise Refused(20)
    return fits(record.last_lba - record.first_lba + 1, "count")


@call(zero=(0,))
def gpt_sectors_len(record):
    """Document 01, Partition entry: sectors_len."""
    return (sectors(record),)


@call(zero=(0,))
def gpt_bytes_len(record, b):
    """Document 01, Partition entry: bytes_len gives 3 on overflow, after the two of sectors_len."""
    need_block_size(b)
    return (fits(sectors(record) * b, "product"),)


@call(zero=(0,))
def gpt_bytes_start(record, b):
    """Document 01, Partition entry: bytes_start gives 3 on overflow."""
    need_block_size(b)
    return (fits(record.first_lba * b, "product"),)


def need_device_sizes(b, size):
    """Document 01, Partition entry, device writes: 1, then 7."""
    need_block_size(b)
    if size == 0 or size > GREATEST_SIZE:
        raise Refused(7)


def device_place(index, length, start, b, size):
    """Document 01, Partition entry, device writes: 3 for start product, index product, their sum, the length and the end."""
    first = fits(start * b, "start product")
    offset = fits(index * size, "index product")
    place = fits(first + offset, "sum of the products")
    fits(length, "zeroed length")
    fits(place + length, "end")
    return place


@call(zero=(0,), lent=(0,))
def gpt_write_entry(img, record, index, start, b, size):
    """Document 01, Partition entry, device writes: 7, 3, 2; the answer is how many bytes were stored. Document 02, 7/13:
    28 after 7, so 1, 7, 28, 3, 2."""
    need_device_sizes(b, size)
    raw = cut_or_filled(record, size)
    place = device_place(index, size, start, b, size)
    need_inside(img, place, size)
    img[place : place + size] = raw
    return (size,)


@call(zero=(0,), lent=(0,))
def gpt_write_zero_entries(img, index, count, start, b, size):
    """Document 01, Partition entry, device writes; Numbers: zeroing no entries is accepted at any start that does not overflow."""
    need_device_sizes(b, size)
    length = count * size
    place = device_place(index, length, start, b, size)
    if count:
        need_inside(img, place, length)
        img[place : place + length] = bytes(length)
    return (length,)


def array_of(img, header, b):
    """Document 01, Reading the array: 3 for start times B, 7, 2, 6; Numbers: an empty array is read at any start."""
    need_block_size(b)
    start = fits(header.part_start * b, "array start")
    if header.part_size != ENTRY:
        raise Refused(7)
    length = header.num_parts * ENTRY
    if length:
        need_inside(img, start, length, "array")
    array = bytes(img[start : start + length])
    if crc32(array) != header.crc32_parts:
        raise Refused(6)
    return array


def entry_at(array, slot):
    """Document 01, What is to be built: slots count from 1, array places from 0."""
    return array[ENTRY * (slot - 1) : ENTRY * slot]


def present_slots(array):
    """Document 01, Reading the array: an entry of 128 zero bytes is absent, any other is present."""
    absent = bytes(ENTRY)
    return [slot for slot in range(1, len(array) // ENTRY + 1) if entry_at(array, slot) != absent]


def next_after(slots, after):
    """card.h, gpt_next: the first slot after the given one, or 0 where there is no more."""
    return next((slot for slot in slots if slot > after), 0)


@call(zero=(0, ZERO), lent=(0,))
def gpt_read_partition(img, header, b, slot):
    """Document 01, Reading the array, one entry by slot: 3, 7, 2, 6, 18; the answer is whether it is present, and its record."""
    array = array_of(img, header, b)
    if not 1 <= slot <= header.num_parts:
        raise Refused(18)
    raw = entry_at(array, slot)
    return (int(any(raw)), record_from(raw))


@call(zero=(0,), lent=(0,))
def gpt_count_partitions(img, header, b):
    """Document 01, Reading the array: the count is that of present entries."""
    return (len(present_slots(array_of(img, header, b))),)


@call(zero=(0,), lent=(0,))
def gpt_next_partition(img, header, b, after):
    """Document 01, Reading the array; card.h: the first present slot after a slot."""
    return (next_after(present_slots(array_of(img, header, b)), after),)


@call(zero=(0,), lent=(0, 3))
def gpt_file_read_partitions(img, header, b, out):
    """Document 01, Reading the array: 3, 7, 2, 6, 15; the present entries with their slots, ascending, and their count."""
    array = array_of(img, header, b)
    found = [(slot, record_from(entry_at(array, slot))) for slot in present_slots(array)]
    fill_rows(out, found)
    return (len(found),)
