"""Cards as bytes, made and read from the UEFI specification alone: no code of the library or of the command is used. Also what the command is to say of them."""
import re
import struct
import uuid
import zlib
from dataclasses import dataclass

TYPES = {
    "data": "ebd0a0a2-b9e5-4433-87c0-68b6b72699c7",
    "linux": "0fc63daf-8483-4772-8e79-3d69d8477de4",
    "efi": "c12a7328-f81f-11d2-ba4b-00a0c93ec93b",
    "swap": "0657fd6d-a4ab-43c4-84e5-0933c84b4f4f",
}
DISK = "5a3f1c20-11e7-4b6d-9c04-0242ac110000"
LABEL = struct.Struct("<3sHHBBHH")
ROW = re.compile(r'\s*(\d+)\s+(\d+)\s+(\d+)\s+(\d+(?:\.\d)? (?:B|KiB|MiB|GiB|TiB))\s+(\S+)\s+([0-9a-f-]{36})\s+(\S.*?)\s+(".*")\s*')
HEAD = "slot first last size type guid flags name".split()


def guid(n):
    return f"5a3f1c20-11e7-4b6d-9c04-0242ac11{n:04x}"


@dataclass
class Entry:
    """A used slot. `guid` and `type` are texts, `flags` the 64 bits."""
    first: int
    last: int
    name: str = ""
    guid: str = ""
    type: str = TYPES["data"]
    flags: int = 0

    def packed(self):
        name = self.name.encode("utf-16-le", "surrogatepass").ljust(72, b"\0")
        return uuid.UUID(self.type).bytes_le + uuid.UUID(self.guid).bytes_le + struct.pack("<QQQ", self.first, self.last, self.flags) + name


def entry_from(raw):
    first, last, flags = struct.unpack("<QQQ", raw[32:56])
    name = raw[56:128].decode("utf-16-le", "surrogatepass").split("\0")[0]
    return Entry(first, last, name, str(uuid.UUID(bytes_le=raw[16:32])), str(uuid.UUID(bytes_le=raw[:16])), flags)


def per(size):
    return 16384 // size


def usable(blocks, size):
    return per(size) + 2, blocks - per(size) - 2


def header(own, other, span, disk, start, array, each=128, stated=92, inside=b""):
    """A header of any stated size, over which its check sum goes."""
    def packed(own_sum):
        front = b"EFI PART" + struct.pack("<IIII", 0x10000, stated, own_sum, 0) + struct.pack("<QQQQ", own, other, *span) + uuid.UUID(disk).bytes_le
        return (front + struct.pack("<QIII", start, len(array) // each, each, zlib.crc32(array)) + inside).ljust(stated, b"\0")
    return packed(zlib.crc32(packed(0)))


def mbr(blocks):
    return bytes(446) + bytes.fromhex("00000200EEFFFFFF") + struct.pack("<II", 1, min(blocks - 1, 0xFFFFFFFF)) + bytes(48) + b"\x55\xaa"


def array_of(entries, each=128, count=128):
    return b"".join((entries[s].packed() if s in entries else b"").ljust(each, b"\0") for s in range(1, count + 1))


def tables(blocks, size, entries, disk=DISK):
    """The bytes that a card's laying or update leaves, by their places in the file."""
    array, last = array_of(entries), blocks - 1
    span = usable(blocks, size)
    return {
        0: mbr(blocks),
        size: header(1, last, span, disk, 2, array).ljust(size, b"\0"),
        2 * size: array,
        (last - per(size)) * size: array,
        last * size: header(last, 1, span, disk, last - per(size), array).ljust(size, b"\0"),
    }


def card(blocks, size=512, entries=None, disk=DISK, fill=0, after=0):
    """A card that was laid over bytes that are all `fill`, with so many of them after its last block."""
    return over(bytes([fill]) * (blocks * size + after), size, entries or {}, disk)


def over(image, size, entries, disk=DISK):
    """The image with a card's tables over it."""
    image = bytearray(image)
    for place, data in tables(len(image) // size, size, entries, disk).items():
        image[place:place + len(data)] = data
    return bytes(image)


def foreign(blocks, size, entries, each=128, count=128, stated=92, off=0, after=b""):
    """Another maker's card: so many entries of `each` bytes, headers of `stated` bytes that name the block `off` after theirs, and `after` behind them."""
    array, last = array_of(entries, each, count), blocks - 1
    room = -(-len(array) // size)
    span, image = (2 + room, last - room - 1), bytearray(blocks * size)
    for own, other, start in ((1, last, 2), (last, 1, last - room)):
        head = header(own + off, other, span, DISK, start, array, each, stated) + after
        for block, data in ((start, array), (own, head[:size])):
            image[block * size:block * size + len(data)] = data
    image[:512] = mbr(blocks)
    return bytes(image)


def places(length, size, front):
    """Where a table's header and array stand."""
    last = length // size - 1
    return (size, 2 * size) if front else (last * size, (last - per(size)) * size)


def stored(image, place, data):
    return image[:place] + data + image[place + len(data):]


def sealed(image, size, front, array=True):
    """The image with a table's check sums made anew."""
    head, start = places(len(image), size, front)
    raw = bytearray(image[head:head + 92])
    if array:
        raw[88:92] = struct.pack("<I", zlib.crc32(image[start:start + 16384]))
    raw[16:20] = bytes(4)
    raw[16:20] = struct.pack("<I", zlib.crc32(raw))
    return stored(image, head, bytes(raw))


def with_slot(image, size, front, slot, entry):
    """The image with one slot changed in one table alone, whose sums are right again."""
    place = places(len(image), size, front)[1] + 128 * (slot - 1)
    return sealed(stored(image, place, entry.packed() if entry else bytes(128)), size, front)


def slots(image, size, front=True):
    """The used slots of a table, as its bytes have them."""
    start = places(len(image), size, front)[1]
    found = {s: image[start + 128 * (s - 1):start + 128 * s] for s in range(1, 129)}
    return {s: entry_from(raw) for s, raw in found.items() if any(raw)}


def label(year, month, day, style, sheet, version=1, mark=b"FBM"):
    return LABEL.pack(mark, version, year, month, day, style, sheet)


def words(count):
    """A number of bytes in the words of the command."""
    for unit, power in (("TiB", 40), ("GiB", 30), ("MiB", 20), ("KiB", 10)):
        if count >= 1 << power:
            tenths = count * 10 >> power
            whole = count % (1 << power) == 0 or tenths % 10 == 0
            return f"{tenths // 10} {unit}" if whole else f"{tenths // 10}.{tenths % 10} {unit}"
    return f"{count} B"


def type_word(text):
    return {v: k for k, v in TYPES.items()}.get(text, text)


def row(slot, entry, size, flags="-"):
    """A row of a list, as its fields."""
    name = '"' + entry.name.replace("\\", "\\\\").replace('"', '\\"') + '"'
    length = words((entry.last - entry.first + 1) * size)
    return str(slot), str(entry.first), str(entry.last), length, type_word(entry.type), entry.guid, flags, name


def listed(lines):
    """The rows of a printed list, from its head to the line before `used`; a line that is no row comes as it is."""
    if not lines or lines[0].split() != HEAD:
        return lines[:1]
    found = []
    for line in lines[1:]:
        if line.startswith("used "):
            return found
        match = ROW.fullmatch(line)
        found.append(match.groups() if match else line)
    return found + ["no line `used`"]


def runs(blocks, size, entries):
    """The free runs of a card."""
    first, last = usable(blocks, size)
    found, at = [], first
    for e in sorted(entries.values(), key=lambda e: e.first):
        if e.first > at:
            found.append((at, e.first - 1))
        at = e.last + 1
    return found + ([(at, last)] if at <= last else [])
