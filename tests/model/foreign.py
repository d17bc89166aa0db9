"""Cards from other makers (document 02, 9/13): tables by UEFI's places, with any stated size, entry size and entry count, drawn with a taste for
the edges of the second edition's tests."""

import struct
import zlib

import images
import model
from draws import SLOTS
from headers import Header, Revision, header_from
from units import guid_from

STATED = (0, 1, 20, 91, 92, 93, 96, 128, 255, 256, 511, 512, 513, 4095, 4096, 4097, 2**31, 2**32 - 1, 2**16 + 92)
ENTRY_SIZES = (0, 64, 127, 128, 129, 192, 256, 384, 512, 640, 1024, 2048, 3072, 4096, 4097, 8192, 2**31, 2**32 - 128)
GOOD_SIZES = (128, 128, 256, 512, 1024, 2048, 4096)
CALLS = (
    "gpt_read_primary_header",
    "gpt_read_backup_header",
    "gpt_uefi_read_primary_header",
    "gpt_uefi_read_backup_header",
    "gpt_uefi_count_partitions",
    "gpt_uefi_next_partition",
    "gpt_uefi_read_partition",
    "gpt_uefi_file_read_partitions",
    "gpt_uefi_count_primary",
    "gpt_uefi_count_backup",
    "gpt_uefi_list_primary",
    "gpt_uefi_list_backup",
)


def header_block(b, lba, other, array, stated=92, extra=b"", **fields):
    """A header's block by UEFI 5.3.2: the array is its start, entry count, entry size and sum. extra stands from byte 92 on; the sum is over the
    stated size as far as the block reaches."""
    guid = fields.get("guid", bytes(range(16)))
    usable = fields.get("usable", (6, 7))
    start, count, size, array_sum = array
    front = struct.pack("<8sII", b"EFI PART", fields.get("revision", 0x10000), stated)
    back = struct.pack("<IQQQQ16sQIII", fields.get("reserved", 0), fields.get("own", lba), other, *usable, guid, start, count, size, array_sum)
    block = (front + bytes(4) + back + extra).ljust(b, b"\0")[:b]
    own = zlib.crc32(block[:stated]) + fields.get("off", 0)
    return front + struct.pack("<I", own & 2**32 - 1) + block[20:]


def array_bytes(entries, count, size):
    """An array by UEFI 5.3.3 with the bytes of some slots; each is put at its slot's place and cut to the entry size."""
    return b"".join(entries.get(slot, b"")[:size].ljust(size, b"\0") for slot in range(1, count + 1))


def entry(draw, size):
    """The bytes of one entry: used, with a nil type and other bytes, with bytes after 128 alone, or all zero."""
    raw = bytearray(draw.data(size) if draw.chance(50) else draw.data(128) + bytes(size - 128))
    kind = draw.below(6)
    if kind == 0:
        raw[:16] = bytes(16)
    elif kind == 1:
        raw[:128] = bytes(128)
    elif kind == 2:
        raw[:16] = bytes(draw.below(16)) + b"\1" + bytes(16)
    elif kind == 3:
        raw[56:60] = b"A\0\0\0"
    return bytes(raw[:size])


def drawn_array(draw, image, b):
    """The start, count and size of an array, and its bytes where it is to be stored: inside the image, at its end, or anywhere."""
    size = draw.pick(GOOD_SIZES) if draw.chance(85) else draw.pick(ENTRY_SIZES)
    blocks = len(image) // b
    start = draw.pick((2, 2, 3, draw.below(blocks + 2))) if draw.chance(85) else draw.number(64, [blocks, 2**64 // b, 2**64 // b - 1])
    fit = max((len(image) - start * b) // max(size, 1), 0)
    few = min(fit, 200)
    count = draw.pick((few, few, draw.below(few + 1), draw.below(few + 1), 0)) if draw.chance(80) else draw.pick((fit + 1, 2**32 - 1, 2**20))
    if count > few or size not in GOOD_SIZES:
        return start, count, size, b""
    slots = draw.random.sample(range(1, count + 1), min(count, draw.below(7)))
    return start, count, size, array_bytes({slot: entry(draw, size) for slot in slots}, count, size)


def table(draw, image, b, lba):
    """Steps that store a table by another maker: an array, and at a block a header for it, right or with one thing odd."""
    start, count, size, raw = drawn_array(draw, image, b)
    steps = [("store", start * b, raw)] if raw and start * b < len(image) else []
    image = images.made_from(image, steps)
    reach = count * size
    inside = start * b + reach <= len(image)
    array_sum = zlib.crc32(image[start * b : start * b + reach]) if inside else 0
    array_sum = array_sum if draw.chance(93) else array_sum ^ 1 << draw.below(32)
    stated = draw.pick((92, 92, b, 92 + draw.below(b - 91))) if draw.chance(75) else draw.pick((*STATED, b - 1, b, b + 1))
    kept = min(max(stated, 92), b)
    extra = draw.data(kept - 92) if draw.chance(50) else bytes(kept - 92)
    odd = {"own": draw.pick((0, lba - 1, lba + 1, lba + 2**32, draw.number(64)))} if draw.chance(8) else {}
    odd |= {"off": 1 << draw.below(32)} if draw.chance(8) else {}
    odd |= {"revision": draw.number(32), "reserved": draw.number(32), "guid": draw.data(16)} if draw.chance(20) else {}
    block = bytearray(header_block(b, lba, draw.number(64), (start, count, size, array_sum), stated, extra, **odd))
    if kept < b and draw.chance(10):
        block[draw.pick((kept, b - 1, kept + draw.below(b - kept)))] ^= 1 << draw.below(8)
    if draw.chance(5):
        block[draw.below(8)] ^= 1 << draw.below(8)
    return [*steps, ("store", lba * b, bytes(block))]


def lent_header(draw, image, b):
    """A header for the array calls: the one in block 1 or in the last block, or one over any stretch; mostly with a right sum."""
    lba = draw.pick((1, max(len(image) // b - 1, 1)))
    own = image[lba * b : lba * b + 92]
    if len(own) == 92 and draw.chance(60):
        header = header_from(own)
    else:
        start, count, size, _ = drawn_array(draw, image, b)
        header = draw.header()._replace(part_start=start, num_parts=count, part_size=size)
    place, reach = header.part_start * b, header.num_parts * header.part_size
    right = place + reach <= len(image) and draw.chance(75)
    return header._replace(crc32_parts=zlib.crc32(image[place : place + reach])) if right else header


def array_call(draw, image, b):
    """A header and a block size."""
    return lent_header(draw, image, b), draw.block_size(b)


def slot_call(draw, image, b):
    """The same with a slot: near the entry count, a low one, or any."""
    header, size = array_call(draw, image, b)
    near = draw.number(32, [0, 1, header.num_parts]) if draw.chance(50) else draw.pick(SLOTS)
    return header, size, draw.pick((near, draw.below(min(header.num_parts, 9) + 1)))


def rows_call(draw, image, b):
    """The same with a lent row."""
    header, size = array_call(draw, image, b)
    return header, size, draw.rows(model.CALLS["gpt_uefi_count_partitions"](image, header, size)[1][0])


def list_call(side):
    """A block size and a lent row for the listing of the primary or the backup."""
    return lambda draw, image, b: (draw.block_size(b), draw.rows(model.CALLS["gpt_uefi_count_" + side](image, b)[1][0]))


def tables(draw, image, b):
    """Steps that put a table by another maker at block 1, at the backup's block or at both, and cut the image at times."""
    last = max(len(image) // b - 1, 1)
    hurt = []
    for lba in draw.pick(((1,), (last,), (1, last))):
        hurt += table(draw, images.made_from(image, hurt), b, lba)
    if draw.chance(10):
        hurt.append(("resize", draw.pick((b + 91, b + 92, 2 * b - 1, 2 * b, 3 * b - 1, 3 * b, max(len(image) - 1, 0)))))
    return hurt


def header_of(b, lba, other, array, **fields):
    """The header that a block of header_block holds, field by field and not read from it; its sum is left out."""
    start, count, size, array_sum = array
    guid = guid_from(fields.get("guid", bytes(range(16))))
    revision = fields.get("revision", 0x10000)
    front = (Revision(revision >> 16, revision & 0xFFFF), fields.get("stated", 92), 0, fields.get("reserved", 0))
    return Header(*front, fields.get("own", lba), other, *fields.get("usable", (6, 7)), guid, start, count, size, array_sum)
