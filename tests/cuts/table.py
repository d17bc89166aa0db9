"""A card's table as this test keeps it: a dictionary of slots, and the bytes that document 01 and UEFI give a card with them. Nothing of
it is the library's or the model's."""

import struct
import zlib
from collections import namedtuple

ARRAY = 16384
ENTRY = 128
SLOTS = 128
EMPTY = bytes(ENTRY)
FRONT, BACK = 0, 1

Table = namedtuple("Table", "guid slots")


class Shape(namedtuple("Shape", "b blocks odd")):
    """A card's measures: the block size, its whole blocks, and the odd bytes after them."""

    def length(self):
        """The bytes of the file."""
        return self.b * self.blocks + self.odd

    def usable(self):
        """The first and the last usable block."""
        return 2 + ARRAY // self.b, self.blocks - ARRAY // self.b - 2

    def header(self, back):
        """The block of one copy's header."""
        return self.blocks - 1 if back else 1

    def array(self, back):
        """The first block of one copy's array."""
        return self.blocks - 1 - ARRAY // self.b if back else 2

    def update_blocks(self, slot):
        """The block of each stage of an update."""
        changed = ENTRY * (slot - 1) // self.b
        return self.array(BACK) + changed, self.header(BACK), self.array(FRONT) + changed, self.header(FRONT)

    def repair_blocks(self, back):
        """The block of each stage of a repair, if the back is the good copy or the front is."""
        other = BACK - back
        blocks = range(self.array(other), self.array(other) + ARRAY // self.b)
        return self.header(other), *blocks, self.header(other)


def smallest(b, free=1, odd=0):
    """The measures of a card with so many usable blocks."""
    return Shape(b, 2 * (ARRAY // b) + 3 + free, odd)


def entry(number, first, last, name, flags=0):
    """The 128 bytes of an entry whose GUID has this number."""
    return struct.pack("<16s16sQQQ72s", b"a type of a map.", struct.pack("<QQ", number, 77), first, last, flags, name.encode("utf-16-le"))


def blocks_of(raw):
    """The blocks that an entry has."""
    first, last = struct.unpack_from("<QQ", raw, 32)
    return range(first, last + 1)


def free_blocks(shape, slots):
    """The usable blocks that no slot has."""
    first, last = shape.usable()
    return sorted(set(range(first, last + 1)).difference(*map(blocks_of, slots.values())))


def array_of(slots):
    """The 16,384 bytes of an array with these slots."""
    return b"".join(slots.get(slot, EMPTY) for slot in range(1, SLOTS + 1))


def rows_of(slots):
    """The rows of a listing of these slots."""
    return b"".join(struct.pack("<Q", slot) + slots[slot] for slot in sorted(slots))


def changed_to(slots, slot, raw):
    """The slots after an update; zeros leave a slot empty."""
    kept = {other: held for other, held in slots.items() if other != slot}
    return {**kept, slot: raw} if any(raw) else kept


def header_block(shape, back, guid, parts):
    """The header block of one copy, with a disk GUID and an array's sum."""
    places = (shape.header(back), shape.header(BACK - back), *shape.usable())

    def packed(own):
        fields = (b"EFI PART", 0x10000, 92, own, 0, *places, guid, shape.array(back), SLOTS, ENTRY, parts)
        return struct.pack("<8sIIIIQQQQ16sQIII", *fields)

    return packed(zlib.crc32(packed(0))).ljust(shape.b, b"\0")


def stored(image, shape, block, data):
    """The image with bytes stored from a block on."""
    return image[: block * shape.b] + data + image[block * shape.b + len(data) :]


def with_copy(image, shape, back, table):
    """The image with one copy of a table."""
    array = array_of(table.slots)
    image = stored(image, shape, shape.array(back), array)
    return stored(image, shape, shape.header(back), header_block(shape, back, table.guid, zlib.crc32(array)))


def with_table(image, shape, table):
    """The image with both copies of a table."""
    return with_copy(with_copy(image, shape, FRONT, table), shape, BACK, table)
