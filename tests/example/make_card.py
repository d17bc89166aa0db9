#!/usr/bin/env python3
"""Makes the cards that the gate compares with, from the UEFI specification (2.10, chapter 5) alone: no code of this library is used.

make_card.py lister   document 01's example: 68 blocks of 512 bytes, slot 1 at 34 to 34 (crates/lister/stdin)
make_card.py free_ground  a card with holes before, between and after its two slots   (crates/free_ground/stdin)
make_card.py uefi_lister  another maker's card: a header of 512 bytes, entries of 512     (crates/uefi_lister/stdin)
make_card.py sample   the sample card: 128 blocks of 512 bytes, three slots           (crates/sample/stdout)
make_card.py sums     the lines `digest of the image` of crates/cases/stdout, in their order
"""
import struct
import sys
import zlib

BASIC_DATA = struct.pack("<IHH", 0xEBD0A0A2, 0xB9E5, 0x4433) + bytes.fromhex("87C068B6B72699C7")


def guid(last):
    return struct.pack("<IHH", 0x5A3F1C20, 0x11E7, 0x4B6D) + bytes.fromhex("9C040242AC1100") + bytes([last])


def entry(last, first_lba, last_lba, name, flags=0):
    """Table 5-8: type, unique GUID, first and last block, attributes, 36 UTF-16LE units, of which a surrogate may stand alone."""
    units = name.encode("utf-16-le", "surrogatepass").ljust(72, b"\0")
    return BASIC_DATA + guid(last) + struct.pack("<QQQ", first_lba, last_lba, flags) + units


def header(own, other, first, last, disk, start, array):
    """Table 5-5, with both check sums."""
    def packed(own_sum):
        return (b"EFI PART" + struct.pack("<IIII", 0x00010000, 92, own_sum, 0) + struct.pack("<QQQQ", own, other, first, last)
                + disk + struct.pack("<QIII", start, 128, 128, zlib.crc32(array)))
    return packed(zlib.crc32(packed(0)))


def protective_mbr(size):
    """Table 5-4: one record of type EE from block 1 on."""
    record = bytes.fromhex("00000200EEFFFFFF") + struct.pack("<II", 1, min(size, 0xFFFFFFFF))
    return bytes(446) + record + bytes(48) + b"\x55\xaa"


def card(blocks, size, entries, fill=0, after=0):
    """A card laid over bytes that are all `fill`, with so many of them after its last block."""
    array = b"".join(entries).ljust(16384, b"\0")
    per = 16384 // size
    last = blocks - 1
    first_usable, last_usable = 2 + per, last - per - 1
    image = bytearray([fill]) * (blocks * size + after)

    def put(block, data):
        image[block * size:block * size + len(data)] = data

    put(0, protective_mbr(last))
    put(1, header(1, last, first_usable, last_usable, guid(0), 2, array).ljust(size, b"\0"))
    put(2, array)
    put(last - per, array)
    put(last, header(last, 1, first_usable, last_usable, guid(0), last - per, array).ljust(size, b"\0"))
    return bytes(image)


def wide_header(own, other, usable, start, array, each, stated=92, inside=b""):
    """Table 5-5 once more, of any HeaderSize: `inside` stands from byte 92 on, and zeros after it up to that size, which the check sum covers."""
    def packed(own_sum):
        front = b"EFI PART" + struct.pack("<IIII", 0x00010000, stated, own_sum, 0) + struct.pack("<QQQQ", own, other, *usable) + guid(0)
        return (front + struct.pack("<QIII", start, len(array) // each, each, zlib.crc32(array)) + inside).ljust(stated, b"\0")
    return packed(zlib.crc32(packed(0)))


def other_card(blocks, size, slots, each=128, count=128, off=0, **more):
    """Another maker's card: so many entries of `each` bytes, of which these slots hold bytes; header and array on both sides, as short as they may be. Each header names the
    block `off` after its own as its own."""
    array = b"".join(slots.get(slot, b"").ljust(each, b"\0") for slot in range(1, count + 1))
    per = -(-len(array) // size)
    last = blocks - 1
    usable = 2 + per, last - per - 1
    image = bytearray(blocks * size)
    for own, other, start in ((1, last, 2), (last, 1, last - per)):
        for block, data in ((start, array), (own, wide_header(own + off, other, usable, start, array, each, **more))):
            image[block * size:block * size + len(data)] = data
    image[:512] = protective_mbr(last)
    return bytes(image)


def other_slots(each):
    """Slots of another maker: used ones, one with bytes after 128, and one that is absent by its type alone, although it has other bytes."""
    return {1: entry(1, 34, 65, "map 2026-11-15"), 2: bytes(16) + entry(2, 40, 50, "gone")[16:], 3: entry(3, 66, 85, "h\u00f6hen \u9ad8\u7a0b"),
            16: entry(4, 86, 94, "notes").ljust(each, b"\xa5")}


CARDS = {
    "uefi_lister": lambda: other_card(128, 512, other_slots(512), each=512, count=16, stated=512, inside=b"another maker"),
    "lister": lambda: card(68, 512, [entry(1, 34, 34, "map")]),
    "free_ground": lambda: card(128, 512, [entry(1, 60, 69, "roads"), entry(2, 36, 49, "map")]),
    "sample": lambda: card(128, 512, [entry(1, 34, 65, "map 2026-11-15"), entry(2, 66, 85, "roads"), entry(3, 86, 94, "notes")]),
}



def sums():
    """The images of crates/cases: the smallest card with no slot and with slot 1; a card of three usable blocks with named slots 4 and 6, and with slots 1 and 2."""
    def show(size, blocks, entries):
        print("%d: digest of the image: %08x" % (size, zlib.crc32(card(blocks, size, entries, 0xA5, 100))))

    empty = bytes(128)
    for size, blocks, first in ((512, 68, 34), (4096, 12, 6)):
        show(size, blocks, [])
        show(size, blocks, [entry(1, first, first, "")])
    for size, blocks, first in ((512, 70, 34), (4096, 14, 6)):
        show(size, blocks, [empty] * 3 + [entry(4, first, first, "map\ud800", 2 ** 63 + 1), empty, entry(6, first + 1, first + 2, "A" * 36)])
        two = [entry(1, first, first, ""), entry(2, first + 1, first + 2, "")]
        show(size, blocks, two)
        show(size, blocks, two)


if __name__ == "__main__":
    if sys.argv[1:] == ["sums"]:
        sums()
        sys.exit()
    if len(sys.argv) != 2 or sys.argv[1] not in CARDS:
        sys.exit(__doc__)
    sys.stdout.buffer.write(CARDS[sys.argv[1]]())
