"""The header builder (document 01, Builder)."""

from collections import namedtuple

from headers import SIZE, ZERO, Header, Revision
from units import Refused, call, fits, need_block_size

LEAST_COUNT = 128
Settings = namedtuple("Settings", "disk_guid backup_lba first_usable last_usable num_parts part_size primary")


@call(zero=())
def gpt_settings_new(guid):
    """Document 01, Builder; card.h: a primary header, 128 entries of 128 bytes, the backup not set."""
    return tuple(Settings(guid, 0, 0, 0, LEAST_COUNT, 128, 1))


def built(settings, primary_lba, b):
    """Document 01, Builder, Build: the numbers and the fields, in the order of that paragraph."""
    backup = settings.backup_lba
    if backup < primary_lba:
        raise Refused(9)
    length = fits(settings.num_parts * settings.part_size, "count times size", bits=32)
    blocks = -(-length // b)
    if backup < blocks + 1:
        raise Refused(10, "backup too early")
    first = max(settings.first_usable, 2 + blocks)
    last = max(settings.last_usable, backup - blocks - 1)
    if first > last:
        raise Refused(10, "first above last")
    start = fits((primary_lba if settings.primary else last) + 1, "array start")
    own, other = (primary_lba, backup) if settings.primary else (backup, primary_lba)
    shape = (settings.num_parts, settings.part_size)
    return Header(Revision(1, 0), SIZE, 0, 0, own, other, first, last, settings.disk_guid, start, *shape, 0)


@call(zero=(ZERO,))
def gpt_build(settings, b):
    """Document 01, Builder: the entry-count setter lifts to 128; card.h: the primary is in block 1."""
    need_block_size(b)
    return (built(settings._replace(num_parts=max(settings.num_parts, LEAST_COUNT)), 1, b),)


@call(zero=(ZERO,))
def gpt_build_from_header(header, b):
    """Document 01, Builder: copying from a header does not lift the count. A header before its backup is the primary."""
    need_block_size(b)
    primary = header.current_lba < header.backup_lba
    low, high = (header.current_lba, header.backup_lba) if primary else (header.backup_lba, header.current_lba)
    usable = (header.first_usable, header.last_usable)
    settings = Settings(header.disk_guid, high, *usable, header.num_parts, header.part_size, int(primary))
    return (built(settings, low, b),)
