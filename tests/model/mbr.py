"""The protective MBR (document 01, MBR)."""

import struct
from collections import namedtuple

from units import Refused, call, need_block_size, need_inside

BOOT_CODE = 440
SIGNATURE_END = 444
RECORDS = 446
SIZE = 512
MARK = b"\x55\xaa"
RECORD_LAYOUT = struct.Struct("<8BII")

PartRecord = namedtuple("PartRecord", "boot_indicator start_head start_sector start_track os_type end_head end_sector end_track lb_start lb_size")
Mbr = namedtuple("Mbr", "bootcode disk_signature unknown partitions")
ZERO_RECORD = PartRecord(0, 0, 0, 0, 0, 0, 0, 0, 0, 0)
ZERO = Mbr(bytes(BOOT_CODE), bytes(4), 0, (ZERO_RECORD,) * 4)


def record_from(raw):
    """Document 01, MBR: a record has 16 bytes; P14 shows their order."""
    return PartRecord(*RECORD_LAYOUT.unpack(raw))


def record_bytes(record):
    """Document 01, MBR: the record's 16 bytes."""
    return RECORD_LAYOUT.pack(*record)


def tail_bytes(mbr):
    """Document 01, MBR: bytes 446 to 511, four records and 55 AA."""
    return b"".join(record_bytes(record) for record in mbr.partitions) + MARK


def mbr_bytes(mbr):
    """Document 01, MBR: 440 bytes of boot code, 4 of disk signature, 2 unknown, four records, 55 AA."""
    return mbr.bootcode + mbr.disk_signature + struct.pack("<H", mbr.unknown) + tail_bytes(mbr)


def mbr_from(raw):
    """Document 01, Numbers: 13 if bytes 510, 511 are not 55 AA."""
    if raw[510:512] != MARK:
        raise Refused(13)
    records = tuple(record_from(raw[place : place + 16]) for place in range(RECORDS, 510, 16))
    (unknown,) = struct.unpack("<H", raw[SIGNATURE_END:RECORDS])
    return Mbr(bytes(raw[:BOOT_CODE]), bytes(raw[BOOT_CODE:SIGNATURE_END]), unknown, records)


def protective(lb_size):
    """Document 01, P14: the protective record, with its size."""
    return PartRecord(0, 0, 2, 0, 0xEE, 0xFF, 0xFF, 0xFF, 1, lb_size)


def new_mbr(lb_size):
    """Document 01, Code places: [0; 440] in the new protective MBR; its first record is the protective one."""
    return ZERO._replace(partitions=(protective(lb_size),) + (ZERO_RECORD,) * 3)


@call(zero=())
def gpt_mbr_new(lb_size):
    """Document 01, MBR; card.h: the MBR of a disk with so many blocks after block 0."""
    return tuple(new_mbr(lb_size))


@call(zero=())
def gpt_mbr_protective_record(lb_size):
    """Document 01, P14."""
    return tuple(protective(lb_size))


@call(zero=(ZERO,), lent=(0,))
def gpt_mbr_from_bytes(buf, b):
    """Document 01, MBR, Parsing: 12, 13."""
    need_block_size(b)
    if len(buf) != b:
        raise Refused(12)
    return (mbr_from(buf),)


@call(zero=(ZERO,), lent=(0,))
def gpt_mbr_from_image(img, b):
    """Document 01, MBR, Parsing: from an image 2 first; the bytes to read are block 0."""
    need_block_size(b)
    need_inside(img, 0, b)
    return (mbr_from(img[:b]),)


@call(zero=(ZERO_RECORD,), lent=(0,))
def gpt_mbr_record_from_bytes(buf):
    """Document 01, Numbers: 14 if a record's buffer is not 16 bytes."""
    if len(buf) != 16:
        raise Refused(14)
    return (record_from(buf),)


@call(zero=())
def gpt_mbr_record_to_bytes(record):
    """Document 01, MBR: the record's 16 bytes."""
    return (record_bytes(record),)


@call(zero=())
def gpt_mbr_to_bytes(mbr):
    """Document 01, MBR: writing gives 512 bytes."""
    return (mbr_bytes(mbr),)


@call(zero=(ZERO_RECORD,))
def gpt_mbr_record(mbr, place):
    """Document 01, MBR: a record is read by its place, 18."""
    if place > 3:
        raise Refused(18)
    return (mbr.partitions[place],)


@call(zero=(ZERO_RECORD, ZERO))
def gpt_mbr_set_record(mbr, place, record):
    """Document 01, MBR: a record is set by its place, 18; setting returns the old one."""
    if place > 3:
        raise Refused(18)
    changed = mbr.partitions[:place] + (record,) + mbr.partitions[place + 1 :]
    return (mbr.partitions[place], mbr._replace(partitions=changed))


def store(img, place, data):
    """Document 01, MBR: fewer bytes than needed give 2; the answer is how many bytes were stored."""
    need_inside(img, place, len(data))
    img[place : place + len(data)] = data
    return (len(data),)


@call(zero=(0,), lent=(0,))
def gpt_mbr_overwrite(img, mbr):
    """Document 01, MBR: the full write changes bytes 0 to 511 and returns 512, whatever B is."""
    return store(img, 0, mbr_bytes(mbr))


@call(zero=(0,), lent=(0,))
def gpt_mbr_update_conservative(img, mbr):
    """Document 01, MBR: the conservative write changes bytes 446 to 511 and returns 66."""
    return store(img, RECORDS, tail_bytes(mbr))


@call(zero=(bytes(BOOT_CODE),), lent=(0,))
def gpt_mbr_read_bootcode(img):
    """Document 01, MBR: the boot code can be read alone."""
    need_inside(img, 0, BOOT_CODE)
    return (bytes(img[:BOOT_CODE]),)


@call(zero=(0,), lent=(0,))
def gpt_mbr_write_bootcode(img, bootcode):
    """Document 01, MBR: the boot code can be written alone."""
    return store(img, 0, bootcode)


@call(zero=(bytes(4),), lent=(0,))
def gpt_mbr_read_disk_signature(img):
    """Document 01, MBR: the disk signature can be read alone."""
    need_inside(img, BOOT_CODE, 4)
    return (bytes(img[BOOT_CODE:SIGNATURE_END]),)


@call(zero=(0,), lent=(0,))
def gpt_mbr_write_disk_signature(img, signature):
    """Document 01, MBR: the disk signature can be written alone."""
    return store(img, BOOT_CODE, signature)
