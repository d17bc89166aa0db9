"""The values that calls take and give, as frozen dataclasses: records and their flags, slot maps, labels, states between stages and headers; and how each becomes a struct of the library
(.._in) and is made of one (.._out). Numbers are looked at here, before the library is called. Annotations are values in this file, so that the dataclasses' fields have types and no texts."""
import ctypes
import operator
import uuid
from dataclasses import dataclass

from . import _library as c, _structs as structs
from ._refusals import take

TYPE_CHECKING = False
if TYPE_CHECKING:
    from collections.abc import Callable, Iterable
    from typing import Protocol, SupportsIndex

    from typing_extensions import Self

    class Counted(Protocol):
        """An answer with a count of what was listed."""

        number: int
        count: int

    class Present(Protocol):
        """An answer with the record of a slot, if there is one."""

        number: int
        present: bool
        record: structs.Record


BASIC_DATA = uuid.UUID("ebd0a0a2-b9e5-4433-87c0-68b6b72699c7")
RUNS = 129  # how many runs of free blocks a card has at most


def number(value: "SupportsIndex", bits: int, what: str) -> int:
    """A whole number that fits so many bits."""
    value = operator.index(value)
    if not 0 <= value < 1 << bits:
        raise ValueError(f"{what} does not fit {bits} bits: {value}")
    return value


def slot_in(slot: "SupportsIndex") -> int:
    return number(slot, 32, "the slot")


def size_in(block_size: "SupportsIndex") -> int:
    return number(block_size, 64, "the block size")


@dataclass(frozen=True)
class Flags:
    """The flags of a partition by name: bits 0, 1 and 2 of the 64, bits 3 to 47 as a number (UEFI keeps them zero, and put refuses any other), and bits 48 to
    63, which are for the owner of the partition's type."""

    required: bool = False
    no_block_io: bool = False
    legacy_bootable: bool = False
    reserved: int = 0
    owner: int = 0

    @classmethod
    def of_bits(cls, bits: int) -> "Self":
        """The flags in 64 bits, whatever they are."""
        return cls._named(c.gpt_flags_of(number(bits, 64, "the flags' bits")))

    @classmethod
    def _named(cls, f: structs.Flags) -> "Self":
        return cls(f.required, f.no_block_io, f.legacy_bootable, f.reserved, f.owner)

    def bits(self) -> int:
        """The 64 bits. 28 if the reserved part needs more than 45 bits."""
        return take(c.gpt_flags_bits(flags_in(self))).bits


@dataclass(frozen=True)
class Record:
    """A partition: its type and its own GUID, its first and last block, its flags and its name of at most 36 UTF-16 units."""

    type: uuid.UUID
    guid: uuid.UUID
    first: int
    last: int
    flags: Flags = Flags()
    name: str = ""


@dataclass(frozen=True)
class Entry:
    """A used slot and its record."""

    slot: int
    record: Record


@dataclass(frozen=True)
class SlotMap:
    """128 bits beside a card's table, one for a used slot: slots 1 to 64 in `low`, least bit first, slots 65 to 128 in `high`. It is a value: slot_map makes
    it from a card, and put_mapped and clear_mapped take one and give the next. It stays the card's map as long as nothing else changes the table."""

    low: int
    high: int

    def lowest_free(self) -> int:
        """The lowest free slot. 33."""
        return take(c.card_map_lowest_free(map_in(self))).slot

    def used(self) -> int:
        """How many slots are used."""
        return c.card_map_used(map_in(self))


@dataclass(frozen=True)
class Label:
    """The label that a map's partition begins with: the map's date, its style revision and its sheet number. Month is 1 to 12 and day 1 to 31, in any month."""

    year: int
    month: int
    day: int
    style: int
    sheet: int


@dataclass(frozen=True)
class Dated:
    """What the maps of a set have in common: date and style revision."""

    year: int
    month: int
    day: int
    style: int


@dataclass(frozen=True)
class Update:
    """A put or a clear between its stages: the next stage, 5 where it is finished; what stage one fixed (the slot, its 128 bytes, the disk GUID and the check sum of the new
    array); and the block size and the length in bytes of the image that it began on. Hand it to the next stage once, and drop it: no call can see a stale copy of one."""

    next: int
    slot: int
    block_size: int
    length: int
    entry: bytes
    guid: uuid.UUID
    parts: int

    def block(self, stage: int) -> int:
        """The block that a stage from 1 to 4 changes."""
        last, inside = self.length // self.block_size - 1, (self.slot - 1) * 128 // self.block_size
        return (last - 16384 // self.block_size + inside, last, 2 + inside, 1)[stage - 1]

    def stages(self) -> int:
        """How many stages there are."""
        return 4


@dataclass(frozen=True)
class Repair:
    """A repair between its stages: the next stage; whether the back table is the good one; the block size and the length in bytes of the image that it began on; and the
    good table's disk GUID and the check sum of its array. Hand it on as an Update."""

    next: int
    back: bool
    block_size: int
    length: int
    guid: uuid.UUID
    parts: int

    def block(self, stage: int) -> int:
        """The block that a stage changes: the header of the table that is not the good one at the first and at the last stage, a block of its array at each other."""
        last = self.length // self.block_size - 1
        header, array = (1, 2) if self.back else (last, last - 16384 // self.block_size)
        return header if stage in (1, self.stages()) else array + stage - 2

    def stages(self) -> int:
        """How many stages there are: 34 with blocks of 512 bytes, 6 with 4,096."""
        return 16384 // self.block_size + 2


@dataclass(frozen=True)
class Header:
    """A table's header: its revision as major and minor, the size that it states, its own check sum and its reserved bytes; its own block and the other header's; the usable blocks; the
    disk GUID; and the array's first block, its number of entries, their size in bytes and its check sum."""

    revision: "tuple[int, int]"
    size: int
    sum: int
    reserved: int
    block: int
    other_block: int
    first_usable: int
    last_usable: int
    guid: uuid.UUID
    array_block: int
    entries: int
    entry_size: int
    array_sum: int


def guid_in(guid: uuid.UUID) -> structs.Guid:
    return structs.Guid.from_buffer_copy(guid.bytes_le)


def guid_out(guid: "structs.Guid | ctypes.Array[ctypes.c_uint8]") -> uuid.UUID:
    return uuid.UUID(bytes_le=bytes(guid))


def flags_in(f: Flags) -> structs.Flags:
    if not isinstance(f, Flags):
        raise TypeError(f"the flags must be Flags, as Flags.of_bits makes them of a number, and not {type(f).__name__}")
    reserved, owner = number(f.reserved, 64, "the reserved flags"), number(f.owner, 16, "the owner's flags")
    return structs.Flags(reserved, owner, f.required, f.no_block_io, f.legacy_bootable)


def record_in(r: Record) -> structs.Record:
    units = r.name.encode("utf-16-le", "surrogatepass")
    if len(units) > 72:
        raise ValueError(f"a name has at most 36 UTF-16 units: {r.name!r}")
    if "\0" in r.name:
        raise ValueError(f"a name ends at its first zero, so none can be in it: {r.name!r}")
    first, last = (number(x, 64, "a number of the record") for x in (r.first, r.last))
    type_guid, guid = ((ctypes.c_uint8 * 16).from_buffer_copy(g.bytes_le) for g in (r.type, r.guid))
    return structs.Record(type_guid, guid, first, last, flags_in(r.flags), (ctypes.c_uint16 * 36).from_buffer_copy(units.ljust(72, b"\0")))


def record_out(e: "structs.Entry | structs.Record") -> Record:
    """The record of an entry, whose flags are bits, or of a record, where they have names."""
    text = bytes(e.name).decode("utf-16-le", "surrogatepass").split("\0", 1)[0]
    flags = Flags._named(e.flags) if isinstance(e.flags, structs.Flags) else Flags.of_bits(e.flags)
    return Record(guid_out(e.type), guid_out(e.guid), e.first, e.last, flags, text)


def present_out(read: "Present") -> "Record | None":
    """The record of a slot, or None where it is unused."""
    take(read)
    return record_out(read.record) if read.present else None


def map_in(m: SlotMap) -> structs.Map:
    return structs.Map(number(m.low, 64, "a word of the map"), number(m.high, 64, "a word of the map"))


def map_out(m: structs.Map) -> SlotMap:
    return SlotMap(m.low, m.high)


def label_in(label: Label) -> structs.Label:
    year, style, sheet = (number(x, 16, "a number of the label") for x in (label.year, label.style, label.sheet))
    return structs.Label(year, number(label.month, 8, "the month"), number(label.day, 8, "the day"), style, sheet)


def label_out(label: structs.Label) -> Label:
    return Label(label.year, label.month, label.day, label.style, label.sheet)


def dated_out(judged: structs.Judged) -> Dated:
    return Dated(judged.year, judged.month, judged.day, judged.style)


def header_out(h: structs.Header) -> Header:
    blocks = (h.block, h.other_block, h.first_usable, h.last_usable)
    return Header((h.major, h.minor), h.size, h.sum, h.reserved, *blocks, guid_out(h.guid), h.array_block, h.entries, h.entry_size, h.array_sum)


def update_in(u: Update) -> structs.Update:
    if len(u.entry) != 128:
        raise ValueError(f"the slot's bytes are 128, and not {len(u.entry)}")
    stage, slot, parts = (number(x, 32, "a number of the state") for x in (u.next, u.slot, u.parts))
    b, length = (number(x, 64, "a number of the state") for x in (u.block_size, u.length))
    return structs.Update(stage, slot, b, length, (ctypes.c_uint8 * 128).from_buffer_copy(u.entry), guid_in(u.guid), parts)


def update_out(step: structs.UpdateStep) -> Update:
    u = take(step).state
    return Update(u.next, u.slot, u.b, u.len, bytes(u.entry), guid_out(u.guid), u.parts)


def repair_in(r: Repair) -> structs.Repair:
    stage, parts = (number(x, 32, "a number of the state") for x in (r.next, r.parts))
    b, length = (number(x, 64, "a number of the state") for x in (r.block_size, r.length))
    return structs.Repair(stage, r.back, b, length, guid_in(r.guid), parts)


def repair_out(step: structs.RepairStep) -> Repair:
    r = take(step).state
    return Repair(r.next, r.back, r.b, r.len, guid_out(r.guid), r.parts)


def entries_out(rows: "Iterable[structs.Row]") -> "list[Entry]":
    return [Entry(row.slot, record_out(row.entry)) for row in rows]


def rows_of(fill: "Callable[..., Counted]") -> "list[Entry]":
    """The entries that a call lists into new rows for all slots: it is lent a pointer and a length."""
    rows = (structs.Row * 128)()
    n = take(fill(ctypes.byref(rows), ctypes.sizeof(rows))).count
    return entries_out(rows[:n])


def runs_of(fill: "Callable[..., Counted]") -> "list[range]":
    """The runs that a call finds, as ranges: it is lent two rows."""
    starts, lengths = (ctypes.c_uint64 * RUNS)(), (ctypes.c_uint64 * RUNS)()
    n = take(fill(ctypes.byref(starts), RUNS, ctypes.byref(lengths), RUNS)).count
    return [range(first, first + blocks) for first, blocks in zip(starts[:n], lengths[:n])]
