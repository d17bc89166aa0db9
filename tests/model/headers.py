"""Headers (document 01, Header): reading, the array's sum and writing."""

import struct
from collections import namedtuple

from sums import crc32
from units import NIL, NOWHERE, Refused, call, fits, guid_bytes, guid_from, need_block_size, need_inside

SIGNATURE = b"EFI PART"
SIZE = 92
LAYOUT = struct.Struct("<8sHHIIIQQQQ16sQIII")

Revision = namedtuple("Revision", "major minor")
Header = namedtuple(
    "Header",
    "revision header_size_le crc32 reserved current_lba backup_lba first_usable last_usable disk_guid part_start num_parts part_size crc32_parts",
)
ZERO = Header(Revision(0, 0), 0, 0, 0, 0, 0, 0, 0, NIL, 0, 0, 0, 0)


def header_from(raw):
    """Document 01, Header: the places of the fields; the minor revision comes first. The signature is no field."""
    _, minor, major, size, own_sum, reserved, *blocks, guid, start, count, entry, array_sum = LAYOUT.unpack(raw)
    return Header(Revision(major, minor), size, own_sum, reserved, *blocks, guid_from(guid), start, count, entry, array_sum)


def header_bytes(header):
    """Document 01, Header: the 92 bytes, which begin with EFI PART, always so stored."""
    front = (header.revision.minor, header.revision.major, header.header_size_le, header.crc32, header.reserved)
    blocks = (header.current_lba, header.backup_lba, header.first_usable, header.last_usable)
    array = (header.part_start, header.num_parts, header.part_size, header.crc32_parts)
    return LAYOUT.pack(SIGNATURE, *front, *blocks, guid_bytes(header.disk_guid), *array)


def header_sum(raw):
    """Document 01, Header: the sum covers the 92 bytes with 16 to 19 as zero, whatever size the header states."""
    return crc32(raw[:16] + bytes(4) + raw[20:SIZE])


def header_at(img, place, step="", where=NOWHERE):
    """Document 01, Header, Reading: 2, 4, 5. Document 02, 5/13: in the card check 4 and 5 say which table it is."""
    need_inside(img, place, SIZE)
    raw = bytes(img[place : place + SIZE])
    if raw[:8] != SIGNATURE:
        raise Refused(4, step, where=where)
    header = header_from(raw)
    if header.crc32 != header_sum(raw):
        raise Refused(5, step, where=where)
    return header


def backup_block(length, b):
    """Document 01, Header: the backup stands at block (L - B) / B rounded down, 8 first; Numbers: 8 if L is below 3B."""
    if length < 3 * b:
        raise Refused(8)
    return (length - b) // b


@call(zero=(ZERO,), lent=(0,))
def gpt_read_primary_header(img, b):
    """Document 01, Header: the primary stands at byte B."""
    need_block_size(b)
    return (header_at(img, b),)


@call(zero=(ZERO,), lent=(0,))
def gpt_read_backup_header(img, b):
    """Document 01, Header: the backup, 8 first."""
    need_block_size(b)
    return (header_at(img, backup_block(len(img), b) * b),)


@call(zero=(0,))
def gpt_find_backup_lba(length, b):
    """Document 01, Header: the backup's block."""
    need_block_size(b)
    return (backup_block(length, b),)


def array_place(img, header, b):
    """Document 01, Header, Writing: 3 (array start), 2 (array); Numbers: an empty array is summed at any start."""
    start = fits(header.part_start * b, "array start")
    length = header.num_parts * header.part_size
    if length:
        need_inside(img, start, length, "array")
    return start, length


@call(zero=(0,), lent=(0,))
def gpt_partentry_checksum(img, header, b):
    """Document 01, Header, Writing: the sum of the array that the header names."""
    need_block_size(b)
    start, length = array_place(img, header, b)
    return (crc32(img[start : start + length]),)


def store_header(img, header, b):
    """Document 01, Header, Writing: 3 and 2 of the array, 3 and 2 of the own place, then one whole block, zero after byte 91.

    The stored header has reserved 0 and new sums. The returned one is the given one with its new sums.
    """
    start, length = array_place(img, header, b)
    place = fits(header.current_lba * b, "own place")
    need_inside(img, place, b, "own place")
    header = header._replace(crc32_parts=crc32(img[start : start + length]))
    stored = header._replace(reserved=0)
    own_sum = header_sum(header_bytes(stored))
    img[place : place + b] = header_bytes(stored._replace(crc32=own_sum)).ljust(b, b"\0")
    return header._replace(crc32=own_sum)


@call(zero=(0, ZERO), lent=(0,))
def gpt_write_primary(img, header, b):
    """Document 01, Header, Writing; Numbers: 11 if a primary's current block is not below its backup's."""
    need_block_size(b)
    if header.current_lba >= header.backup_lba:
        raise Refused(11)
    return (b, store_header(img, header, b))


@call(zero=(0, ZERO), lent=(0,))
def gpt_write_backup(img, header, b):
    """Document 01, Header, Writing; Numbers: 11 if a backup's current block is not above the other one."""
    need_block_size(b)
    if header.current_lba <= header.backup_lba:
        raise Refused(11)
    return (b, store_header(img, header, b))
