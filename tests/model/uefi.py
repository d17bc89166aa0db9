"""The second reading edition, by UEFI (document 02, 9/13)."""

from entries import ENTRY, GREATEST_SIZE, ZERO, fill_rows, next_after, record_from
from headers import SIGNATURE, SIZE, backup_block, header_from
from headers import ZERO as NO_HEADER
from sums import crc32
from units import Refused, call, fits, need_block_size, need_inside

ENTRY_SIZES = tuple(ENTRY * 2**n for n in range(6))
TYPE = 16


def header_sum(block, size):
    """Document 02, 9/13: "the sum covers that many bytes"; document 01, Header: with 16 to 19 as zero."""
    return crc32(block[:16] + bytes(4) + block[20:size])


def header_at(img, lba, b):
    """Document 02, 9/13: 2 if the block doesn't fit, 4, 29, 5, 30, 31; reserved bytes, revision and alternate block are not looked at."""
    need_inside(img, lba * b, b)
    block = bytes(img[lba * b : lba * b + b])
    if block[:8] != SIGNATURE:
        raise Refused(4)
    header = header_from(block[:SIZE])
    size = header.header_size_le
    if size < SIZE or size > b:
        raise Refused(29, "below 92" if size < SIZE else "above B")
    if header_sum(block, size) != header.crc32:
        raise Refused(5)
    if any(block[size:]):
        raise Refused(30)
    if header.current_lba != lba:
        raise Refused(31)
    return header


def primary(img, b):
    """Document 02, 9/13: the header in block 1."""
    need_block_size(b)
    return header_at(img, 1, b)


def backup(img, b):
    """Document 02, 9/13: "8 for the backup", then the header in the backup's block."""
    need_block_size(b)
    return header_at(img, backup_block(len(img), b), b)


def entries_of(img, header, b):
    """Document 02, 9/13: 7 (entry size is not 128 times a power of two, up to 4,096), then the array's 3, 2, 6. The 128 bytes of each entry;
    "bytes after 128 are passed over"."""
    need_block_size(b)
    size = header.part_size
    if size not in ENTRY_SIZES:
        raise Refused(7, "above 4,096" if size > GREATEST_SIZE else "up to 4,096")
    start = fits(header.part_start * b, "array start")
    length = header.num_parts * size
    if length:
        need_inside(img, start, length, "array")
    array = bytes(img[start : start + length])
    if crc32(array) != header.crc32_parts:
        raise Refused(6)
    return [array[place : place + ENTRY] for place in range(0, length, size)]


def present(raw):
    """Document 02, 9/13: "an entry is absent exactly if its type is nil"."""
    return any(raw[:TYPE])


def found(img, header, b):
    """The present entries with their slots, ascending."""
    return [(slot, record_from(raw)) for slot, raw in enumerate(entries_of(img, header, b), 1) if present(raw)]


def listed(img, header, b, out):
    """Document 02, 9/13: into the lent row, 15 last."""
    rows = found(img, header, b)
    fill_rows(out, rows)
    return (len(rows),)


@call(zero=(NO_HEADER,), lent=(0,))
def gpt_uefi_read_primary_header(img, b):
    """The header of the primary alone."""
    return (primary(img, b),)


@call(zero=(NO_HEADER,), lent=(0,))
def gpt_uefi_read_backup_header(img, b):
    """The header of the backup alone."""
    return (backup(img, b),)


@call(zero=(0,), lent=(0,))
def gpt_uefi_count_partitions(img, header, b):
    """How many entries of a header's array are present."""
    return (len(found(img, header, b)),)


@call(zero=(0,), lent=(0,))
def gpt_uefi_next_partition(img, header, b, after):
    """The first present slot after a slot, or 0."""
    return (next_after([slot for slot, _ in found(img, header, b)], after),)


@call(zero=(0, ZERO), lent=(0,))
def gpt_uefi_read_partition(img, header, b, slot):
    """One entry by its slot, 18 last: whether it is present, and its record, which is zero of an absent one."""
    raw = entries_of(img, header, b)
    if not 1 <= slot <= header.num_parts:
        raise Refused(18)
    return (1, record_from(raw[slot - 1])) if present(raw[slot - 1]) else (0, ZERO)


@call(zero=(0,), lent=(0, 3))
def gpt_uefi_file_read_partitions(img, header, b, out):
    """A header's array into the lent row."""
    return listed(img, header, b, out)


@call(zero=(0,), lent=(0,))
def gpt_uefi_count_primary(img, b):
    """Header and array of the primary in one call: how many entries are present."""
    return (len(found(img, primary(img, b), b)),)


@call(zero=(0,), lent=(0,))
def gpt_uefi_count_backup(img, b):
    """The same of the backup."""
    return (len(found(img, backup(img, b), b)),)


@call(zero=(0,), lent=(0, 2))
def gpt_uefi_list_primary(img, b, out):
    """Header and array of the primary in one call, into the lent row."""
    return listed(img, primary(img, b), b, out)


@call(zero=(0,), lent=(0, 2))
def gpt_uefi_list_backup(img, b, out):
    """The same of the backup."""
    return listed(img, backup(img, b), b, out)
