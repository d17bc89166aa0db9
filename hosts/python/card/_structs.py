"""The structs of include/card.h, as ctypes has them, and the interpreter's own of a buffer. The sizes are compared when the package is imported: it is for x86-64. The lines above
_fields_ say of each field what Python sees, for mypy."""
from __future__ import annotations

import ctypes
from ctypes import c_bool, c_int, c_size_t, c_ssize_t, c_uint8, c_uint16, c_uint32, c_uint64, c_void_p


class Map(ctypes.Structure):
    low: int
    high: int
    _fields_ = [("low", c_uint64), ("high", c_uint64)]


class Flags(ctypes.Structure):
    reserved: int
    owner: int
    required: bool
    no_block_io: bool
    legacy_bootable: bool
    _fields_ = [("reserved", c_uint64), ("owner", c_uint16), ("required", c_bool), ("no_block_io", c_bool), ("legacy_bootable", c_bool)]


class Bits(ctypes.Structure):
    number: int
    bits: int
    _fields_ = [("number", c_uint32), ("bits", c_uint64)]


class Record(ctypes.Structure):
    type: ctypes.Array[c_uint8]
    guid: ctypes.Array[c_uint8]
    first: int
    last: int
    flags: Flags
    name: ctypes.Array[c_uint16]
    _fields_ = [("type", c_uint8 * 16), ("guid", c_uint8 * 16), ("first", c_uint64), ("last", c_uint64), ("flags", Flags), ("name", c_uint16 * 36)]


class Entry(ctypes.Structure):
    """An entry as it stands on the card."""

    type: ctypes.Array[c_uint8]
    guid: ctypes.Array[c_uint8]
    first: int
    last: int
    flags: int
    name: ctypes.Array[c_uint16]
    _fields_ = [("type", c_uint8 * 16), ("guid", c_uint8 * 16), ("first", c_uint64), ("last", c_uint64), ("flags", c_uint64), ("name", c_uint16 * 36)]


class Guid(ctypes.Structure):
    time_low: int
    time_mid: int
    time_high: int
    tail: ctypes.Array[c_uint8]
    _fields_ = [("time_low", c_uint32), ("time_mid", c_uint16), ("time_high", c_uint16), ("tail", c_uint8 * 8)]


class Answer(ctypes.Structure):
    number: int
    slot: int
    place: int
    differs: int
    _fields_ = [("number", c_uint32), ("slot", c_uint32), ("place", c_uint32), ("differs", c_uint32)]


class Stored(ctypes.Structure):
    number: int
    place: int
    differs: int
    bytes: int
    _fields_ = [("number", c_uint32), ("place", c_uint32), ("differs", c_uint32), ("bytes", c_uint64)]


class Count(ctypes.Structure):
    number: int
    count: int
    place: int
    differs: int
    _fields_ = [("number", c_uint32), ("count", c_uint32), ("place", c_uint32), ("differs", c_uint32)]


class Next(ctypes.Structure):
    number: int
    slot: int
    _fields_ = [("number", c_uint32), ("slot", c_uint32)]


class Made(ctypes.Structure):
    number: int
    place: int
    differs: int
    map: Map
    _fields_ = [("number", c_uint32), ("place", c_uint32), ("differs", c_uint32), ("map", Map)]


class Carried(ctypes.Structure):
    answer: Answer
    map: Map
    _fields_ = [("answer", Answer), ("map", Map)]


class Label(ctypes.Structure):
    year: int
    month: int
    day: int
    style: int
    sheet: int
    _fields_ = [("year", c_uint16), ("month", c_uint8), ("day", c_uint8), ("style", c_uint16), ("sheet", c_uint16)]


class LabelRead(ctypes.Structure):
    number: int
    place: int
    differs: int
    label: Label
    _fields_ = [("number", c_uint32), ("place", c_uint32), ("differs", c_uint32), ("label", Label)]


class Judged(ctypes.Structure):
    number: int
    slot: int
    place: int
    differs: int
    year: int
    month: int
    day: int
    style: int
    _fields_ = [*Answer._fields_, ("year", c_uint16), ("month", c_uint8), ("day", c_uint8), ("style", c_uint16)]


class Copy(ctypes.Structure):
    number: int
    back: bool
    _fields_ = [("number", c_uint32), ("back", c_bool)]


class ReaderCount(ctypes.Structure):
    number: int
    count: int
    _fields_ = [("number", c_uint32), ("count", c_uint32)]


class SlotRead(ctypes.Structure):
    number: int
    present: bool
    place: int
    differs: int
    record: Record
    _fields_ = [("number", c_uint32), ("present", c_bool), ("place", c_uint32), ("differs", c_uint32), ("record", Record)]


class ReaderSlot(ctypes.Structure):
    number: int
    present: bool
    record: Record
    _fields_ = [("number", c_uint32), ("present", c_bool), ("record", Record)]


class Spot(ctypes.Structure):
    number: int
    place: int
    differs: int
    at: int
    _fields_ = [("number", c_uint32), ("place", c_uint32), ("differs", c_uint32), ("at", c_uint64)]


class Header(ctypes.Structure):
    major: int
    minor: int
    size: int
    sum: int
    reserved: int
    block: int
    other_block: int
    first_usable: int
    last_usable: int
    guid: Guid
    array_block: int
    entries: int
    entry_size: int
    array_sum: int
    _fields_ = [("major", c_uint16), ("minor", c_uint16), ("size", c_uint32), ("sum", c_uint32), ("reserved", c_uint32), ("block", c_uint64), ("other_block", c_uint64),
                ("first_usable", c_uint64), ("last_usable", c_uint64), ("guid", Guid), ("array_block", c_uint64), ("entries", c_uint32), ("entry_size", c_uint32), ("array_sum", c_uint32)]


class HeaderRead(ctypes.Structure):
    number: int
    header: Header
    _fields_ = [("number", c_uint32), ("header", Header)]


class Update(ctypes.Structure):
    next: int
    slot: int
    b: int
    len: int
    entry: ctypes.Array[c_uint8]
    guid: Guid
    parts: int
    _fields_ = [("next", c_uint32), ("slot", c_uint32), ("b", c_uint64), ("len", c_size_t), ("entry", c_uint8 * 128), ("guid", Guid), ("parts", c_uint32)]


class UpdateStep(ctypes.Structure):
    number: int
    slot: int
    place: int
    differs: int
    state: Update
    _fields_ = [*Answer._fields_, ("state", Update)]


class Repair(ctypes.Structure):
    next: int
    back: bool
    b: int
    len: int
    guid: Guid
    parts: int
    _fields_ = [("next", c_uint32), ("back", c_bool), ("b", c_uint64), ("len", c_size_t), ("guid", Guid), ("parts", c_uint32)]


class RepairStep(ctypes.Structure):
    number: int
    slot: int
    place: int
    differs: int
    state: Repair
    _fields_ = [*Answer._fields_, ("state", Repair)]


class Row(ctypes.Structure):
    slot: int
    entry: Entry
    _fields_ = [("slot", c_uint64), ("entry", Entry)]


class Version(ctypes.Structure):
    major: int
    minor: int
    patch: int
    _fields_ = [("major", c_uint32), ("minor", c_uint32), ("patch", c_uint32)]


class Held(ctypes.Structure):
    """The interpreter's own description of a buffer, Py_buffer."""

    place: int | None
    _fields_ = [("place", c_void_p), ("owner", c_void_p), ("length", c_ssize_t), ("item_size", c_ssize_t), ("read_only", c_int), ("dimensions", c_int), ("format", c_void_p),
                ("shape", c_void_p), ("strides", c_void_p), ("suboffsets", c_void_p), ("internal", c_void_p)]


_SIZES = (
    (Flags, 16), (Bits, 16), (Record, 136), (Entry, 128), (Guid, 16), (Answer, 16), (Stored, 24), (Count, 16), (Next, 8), (Row, 136), (Map, 16), (Made, 32), (Carried, 32), (Label, 8),
    (LabelRead, 20), (Judged, 24), (Copy, 8), (ReaderCount, 8), (SlotRead, 152), (ReaderSlot, 144), (Spot, 24), (Header, 88), (HeaderRead, 96), (Update, 176), (UpdateStep, 192), (Repair, 48),
    (RepairStep, 64), (Version, 12), (Held, 80),
)

for _struct, _size in _SIZES:
    if ctypes.sizeof(_struct) != _size:
        raise ImportError(f"{_struct.__name__} has {ctypes.sizeof(_struct)} bytes here, and not {_size}: this module is for x86-64")
