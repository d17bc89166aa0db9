"""The built library, called as card.h declares it. Each call has the name, the arguments and the shape of answer that the model's call has."""

import ctypes
import os
from ctypes import POINTER, c_size_t, c_uint8, c_uint16, c_uint32, c_uint64

import builder
import entries
import headers
import labels
import maps
import mbr
import stages
import units
from units import NOWHERE

GUARD = b"\xa5" * 32
LENT = "a lent slice: a pointer, then a length"
ROW_LENT = "a lent row of 64-bit numbers: a pointer, then a count"
LIST_LENT = "a lent list of 32-bit numbers: a pointer, then a count"
UNITS_LENT = "a lent row of 16-bit units: a pointer, then a count"
LENT_KINDS = {LENT: (c_uint8, 1), ROW_LENT: (c_uint64, 8), LIST_LENT: (c_uint32, 4), UNITS_LENT: (c_uint16, 2)}
SHAPES = {}


class LayoutError(Exception):
    """A structure or a lent buffer is not as card.h says."""


class Number(c_uint32):
    """An answer that is the number alone."""


def structure(name, size, fields, shape=None):
    """A C structure with card.h's size and places, which are tried here. shape is the model's tuple for it; its names are
    the same, their order need not be. A name that begins with _ stands for bytes that hold nothing."""
    kind = type(name, (ctypes.Structure,), {"_fields_": [(field, ctype) for field, ctype, _ in fields]})
    if ctypes.sizeof(kind) != size:
        raise LayoutError(f"the size of {name} is {ctypes.sizeof(kind)}, not {size}")
    if shape and sorted(shape._fields) != sorted(field for field, _, _ in fields if field[0] != "_"):
        raise LayoutError(f"the fields of {name} are not the model's")
    for field, _, place in fields:
        if getattr(kind, field).offset != place:
            raise LayoutError(f"the place of {field} in {name} is {getattr(kind, field).offset}, not {place}")
    SHAPES[kind] = shape
    return kind


def fields_of(ctype, *names, start=0):
    """Fields of one type that follow each other without a gap."""
    return [(name, ctype, start + i * ctypes.sizeof(ctype)) for i, name in enumerate(names)]


def answer(name, size, *fields):
    """An answer: the number first, then its fields. A bool is read as a byte, so that only 0 and 1 pass for one."""
    return structure(name, size, [("number", c_uint32, 0), *fields])


GUID = structure(
    "gpt_guid",
    16,
    [("time_low", c_uint32, 0), ("time_mid", c_uint16, 4), ("time_high", c_uint16, 6), ("tail", c_uint8 * 8, 8)],
    units.Guid,
)
FLAGS_FIELDS = ("required", "no_block_io", "legacy_bootable")
FLAGS = structure(
    "gpt_flags",
    16,
    [("reserved", c_uint64, 0), ("owner", c_uint16, 8), *fields_of(c_uint8, *FLAGS_FIELDS, start=10)],
    entries.Flags,
)
# The one place that says how card.h's record lies, its gpt_flags spread out; the answers that hold a record take their size from here.
PARTITION = structure(
    "gpt_partition",
    136,
    [
        *fields_of(GUID, "part_type_guid", "part_guid"),
        *fields_of(c_uint64, "first_lba", "last_lba", "reserved", start=32),
        ("owner", c_uint16, 56),
        *fields_of(c_uint8, *FLAGS_FIELDS, start=58),
        ("_rest", c_uint8 * 3, 61),
        ("name", c_uint16 * 36, 64),
    ],
    entries.Partition,
)
HELD = ctypes.sizeof(PARTITION)
REVISION = structure("gpt_revision", 4, fields_of(c_uint16, "major", "minor"), headers.Revision)
HEADER = structure(
    "gpt_header",
    88,
    [
        ("revision", REVISION, 0),
        *fields_of(c_uint32, "header_size_le", "crc32", "reserved", start=4),
        *fields_of(c_uint64, "current_lba", "backup_lba", "first_usable", "last_usable", start=16),
        ("disk_guid", GUID, 48),
        ("part_start", c_uint64, 64),
        *fields_of(c_uint32, "num_parts", "part_size", "crc32_parts", start=72),
    ],
    headers.Header,
)
RECORD = structure(
    "gpt_part_record",
    16,
    [*fields_of(c_uint8, *mbr.PartRecord._fields[:8]), *fields_of(c_uint32, "lb_start", "lb_size", start=8)],
    mbr.PartRecord,
)
MBR = structure(
    "gpt_mbr",
    512,
    [("bootcode", c_uint8 * 440, 0), ("disk_signature", c_uint8 * 4, 440), ("unknown", c_uint16, 444), ("partitions", RECORD * 4, 448)],
    mbr.Mbr,
)
SETTINGS = structure(
    "gpt_settings",
    56,
    [
        ("disk_guid", GUID, 0),
        *fields_of(c_uint64, "backup_lba", "first_usable", "last_usable", start=16),
        *fields_of(c_uint32, "num_parts", "part_size", start=40),
        ("primary", c_uint8, 48),
    ],
    builder.Settings,
)
BOOTCODE = structure("gpt_bootcode", 440, [("bytes", c_uint8 * 440, 0)])
SIGNATURE = structure("gpt_signature", 4, [("bytes", c_uint8 * 4, 0)])
RECORD_BYTES = structure("gpt_record_bytes", 16, [("bytes", c_uint8 * 16, 0)])
MBR_BYTES = structure("gpt_mbr_bytes", 512, [("bytes", c_uint8 * 512, 0)])

SLOT_MAP = structure("card_slot_map", 16, fields_of(c_uint64, "low", "high"), maps.SlotMap)

# The one place that says how the answers of the card calls lie. Document 02, 5/13: place and differs may stand anywhere in
# them; the other fields are in the order of the model's values. An answer without the two says place 0 and slot 0.
CARD_ANSWER = answer("card_answer", 16, *fields_of(c_uint32, "slot", "place", "differs", start=4))
CARD_STORED = answer("card_stored", 24, *fields_of(c_uint32, "place", "differs", start=4), ("bytes", c_uint64, 16))
CARD_COUNT = answer("card_count", 16, *fields_of(c_uint32, "count", "place", "differs", start=4))
CARD_NEXT = answer("card_next", 16, *fields_of(c_uint32, "slot", "place", "differs", start=4))
CARD_SLOT_READ = answer(
    "card_slot_read",
    16 + HELD,
    ("present", c_uint8, 4),
    *fields_of(c_uint32, "place", "differs", start=8),
    ("partition", PARTITION, 16),
)
CARD_USED_READ = answer(
    "card_used_read",
    24 + HELD,
    ("found", c_uint8, 4),
    *fields_of(c_uint32, "slot", "place", "differs", start=8),
    ("partition", PARTITION, 24),
)
MAP_MADE = answer("card_map_made", 32, *fields_of(c_uint32, "place", "differs", start=4), ("map", SLOT_MAP, 16))
# card.h has the number, the slot and the place in a card_answer of their own, which lies here.
CARRIED = answer("card_carried", 32, *fields_of(c_uint32, "slot", "place", "differs", start=4), ("map", SLOT_MAP, 16))
STORED = answer("gpt_stored", 16, ("bytes", c_uint64, 8))
COUNT = answer("gpt_count", 8, ("count", c_uint32, 4))
NEXT = answer("gpt_next", 8, ("slot", c_uint32, 4))
SLOT_READ = answer("gpt_slot_read", 8 + HELD, ("present", c_uint8, 4), ("partition", PARTITION, 8))
HEADER_READ = answer("gpt_header_read", 96, ("header", HEADER, 8))
BLOCK = answer("gpt_block", 16, ("lba", c_uint64, 8))
SUM = answer("gpt_sum", 8, ("sum", c_uint32, 4))
HEADER_WRITTEN = answer("gpt_header_written", 104, ("bytes", c_uint64, 8), ("header", HEADER, 16))
ENTRY_READ = answer("gpt_entry_read", 8 + HELD, ("partition", PARTITION, 8))
FLAG_BITS = answer("gpt_flag_bits", 16, ("bits", c_uint64, 8))
LENGTH = answer("gpt_length", 16, ("length", c_uint64, 8))
PLACE = answer("gpt_place", 16, ("place", c_uint64, 8))
MBR_READ = answer("gpt_mbr_read", 516, ("mbr", MBR, 4))
RECORD_READ = answer("gpt_record_read", 20, ("part_record", RECORD, 4))
RECORD_SET = answer("gpt_record_set", 532, ("old", RECORD, 4), ("mbr", MBR, 20))
BOOTCODE_READ = answer("gpt_bootcode_read", 444, ("bootcode", c_uint8 * 440, 4))
SIGNATURE_READ = answer("gpt_signature_read", 8, ("disk_signature", c_uint8 * 4, 4))
# Each row of a listing is written as bytes by the model; the structure is here so that its places are tried too.
ROW = structure("card_row", 136, [("slot", c_uint64, 0), ("entry", c_uint8 * 128, 8)])

DECLARED = {
    "card_lay": (CARD_ANSWER, LENT, c_uint64, GUID),
    "card_check": (CARD_ANSWER, LENT, c_uint64),
    "card_put": (CARD_ANSWER, LENT, c_uint64, c_uint32, PARTITION),
    "card_clear": (CARD_ANSWER, LENT, c_uint64, c_uint32),
    "card_write_payload": (CARD_STORED, LENT, c_uint64, c_uint32, c_size_t, LENT),
    "card_count_used": (CARD_COUNT, LENT, c_uint64),
    "card_next_used": (CARD_NEXT, LENT, c_uint64, c_uint32),
    "card_read_slot": (CARD_SLOT_READ, LENT, c_uint64, c_uint32),
    "card_nth_used": (CARD_USED_READ, LENT, c_uint64, c_uint32),
    "card_list": (CARD_COUNT, LENT, c_uint64, LENT),
    "card_free_runs": (CARD_COUNT, LENT, c_uint64, ROW_LENT, ROW_LENT),
    "card_map_make": (MAP_MADE, LENT, c_uint64),
    "card_map_put": (CARRIED, LENT, c_uint64, c_uint32, PARTITION, SLOT_MAP),
    "card_map_clear": (CARRIED, LENT, c_uint64, c_uint32, SLOT_MAP),
    "card_map_lowest_free": (NEXT, SLOT_MAP),
    "card_map_used": (c_uint32, SLOT_MAP),
    "gpt_crc32": (c_uint32, LENT),
    "gpt_crc32_next": (c_uint32, c_uint32, LENT),
    "gpt_read_primary_header": (HEADER_READ, LENT, c_uint64),
    "gpt_read_backup_header": (HEADER_READ, LENT, c_uint64),
    "gpt_find_backup_lba": (BLOCK, c_size_t, c_uint64),
    "gpt_partentry_checksum": (SUM, LENT, HEADER, c_uint64),
    "gpt_slot_sum": (SUM, c_uint32, LENT, LENT, c_size_t),
    "gpt_write_primary": (HEADER_WRITTEN, LENT, HEADER, c_uint64),
    "gpt_write_backup": (HEADER_WRITTEN, LENT, HEADER, c_uint64),
    "gpt_settings_new": (SETTINGS, GUID),
    "gpt_build": (HEADER_READ, SETTINGS, c_uint64),
    "gpt_build_from_header": (HEADER_READ, HEADER, c_uint64),
    "gpt_flags_of": (FLAGS, c_uint64),
    "gpt_flags_bits": (FLAG_BITS, FLAGS),
    "gpt_entry_from_bytes": (ENTRY_READ, LENT),
    "gpt_entry_to_bytes": (Number, LENT, PARTITION),
    "gpt_is_used": (c_uint8, PARTITION),
    "gpt_sectors_len": (LENGTH, PARTITION),
    "gpt_bytes_len": (LENGTH, PARTITION, c_uint64),
    "gpt_bytes_start": (PLACE, PARTITION, c_uint64),
    "gpt_write_entry": (STORED, LENT, PARTITION, c_uint64, c_uint64, c_uint64, c_uint32),
    "gpt_write_zero_entries": (STORED, LENT, c_uint64, c_uint64, c_uint64, c_uint64, c_uint32),
    "gpt_read_partition": (SLOT_READ, LENT, HEADER, c_uint64, c_uint32),
    "gpt_count_partitions": (COUNT, LENT, HEADER, c_uint64),
    "gpt_next_partition": (NEXT, LENT, HEADER, c_uint64, c_uint32),
    "gpt_file_read_partitions": (COUNT, LENT, HEADER, c_uint64, LENT),
    "gpt_uefi_read_primary_header": (HEADER_READ, LENT, c_uint64),
    "gpt_uefi_read_backup_header": (HEADER_READ, LENT, c_uint64),
    "gpt_uefi_count_partitions": (COUNT, LENT, HEADER, c_uint64),
    "gpt_uefi_next_partition": (NEXT, LENT, HEADER, c_uint64, c_uint32),
    "gpt_uefi_read_partition": (SLOT_READ, LENT, HEADER, c_uint64, c_uint32),
    "gpt_uefi_file_read_partitions": (COUNT, LENT, HEADER, c_uint64, LENT),
    "gpt_uefi_count_primary": (COUNT, LENT, c_uint64),
    "gpt_uefi_count_backup": (COUNT, LENT, c_uint64),
    "gpt_uefi_list_primary": (COUNT, LENT, c_uint64, LENT),
    "gpt_uefi_list_backup": (COUNT, LENT, c_uint64, LENT),
    "gpt_mbr_new": (MBR, c_uint32),
    "gpt_mbr_protective_record": (RECORD, c_uint32),
    "gpt_mbr_from_bytes": (MBR_READ, LENT, c_uint64),
    "gpt_mbr_from_image": (MBR_READ, LENT, c_uint64),
    "gpt_mbr_record_from_bytes": (RECORD_READ, LENT),
    "gpt_mbr_record_to_bytes": (RECORD_BYTES, RECORD),
    "gpt_mbr_to_bytes": (MBR_BYTES, MBR),
    "gpt_mbr_record": (RECORD_READ, MBR, c_size_t),
    "gpt_mbr_set_record": (RECORD_SET, MBR, c_size_t, RECORD),
    "gpt_mbr_overwrite": (STORED, LENT, MBR),
    "gpt_mbr_update_conservative": (STORED, LENT, MBR),
    "gpt_mbr_read_bootcode": (BOOTCODE_READ, LENT),
    "gpt_mbr_write_bootcode": (STORED, LENT, BOOTCODE),
    "gpt_mbr_read_disk_signature": (SIGNATURE_READ, LENT),
    "gpt_mbr_write_disk_signature": (STORED, LENT, SIGNATURE),
}

# Document 02, 6/13: all that card.h says of the stages, the repair and the reader. Stage one of put and clear has the check's place; the
# place of every other step is none, and the reader's answers have no field for one.
UPDATE = structure(
    "card_update",
    176,
    [
        *fields_of(c_uint32, "next", "slot"),
        *fields_of(c_uint64, "b", "len", start=8),
        ("entry", c_uint8 * 128, 24),
        ("guid", GUID, 152),
        ("parts", c_uint32, 168),
    ],
    stages.Update,
)
REPAIR = structure(
    "card_repair",
    48,
    [
        ("next", c_uint32, 0),
        ("back", c_uint8, 4),
        *fields_of(c_uint64, "b", "len", start=8),
        ("guid", GUID, 24),
        ("parts", c_uint32, 40),
    ],
    stages.Repair,
)
UPDATE_STEP = answer("card_update_step", 192, *fields_of(c_uint32, "slot", "place", "differs", start=4), ("state", UPDATE, 16))
REPAIR_STEP = answer("card_repair_step", 64, *fields_of(c_uint32, "slot", "place", "differs", start=4), ("state", REPAIR, 16))
COPY = answer("card_copy", 8, ("back", c_uint8, 4))
DECLARED |= {
    "card_start_put": (UPDATE_STEP, LENT, c_uint64, c_uint32, PARTITION),
    "card_start_clear": (UPDATE_STEP, LENT, c_uint64, c_uint32),
    "card_next_stage": (UPDATE_STEP, LENT, c_uint64, c_uint32, UPDATE),
    "card_start_repair": (REPAIR_STEP, LENT, c_uint64),
    "card_next_repair": (REPAIR_STEP, LENT, c_uint64, c_uint32, REPAIR),
    "card_reader_copy": (COPY, LENT, c_uint64),
    "card_reader_count": (COUNT, LENT, c_uint64),
    "card_reader_next": (NEXT, LENT, c_uint64, c_uint32),
    "card_reader_slot": (SLOT_READ, LENT, c_uint64, c_uint32),
    "card_reader_list": (COUNT, LENT, c_uint64, LENT),
}

# Document 02, 10/13: all that card.h says of the calls on windows, which are the head, the tail, the block count and the block size; and of
# the payload's place.
WINDOWS = (LENT, LENT, c_uint64, c_uint64)
SPOT = answer("card_spot", 24, *fields_of(c_uint32, "place", "differs", start=4), ("at", c_uint64, 16))
DECLARED |= {
    "card_window_lay": (CARD_ANSWER, *WINDOWS, GUID),
    "card_window_check": (CARD_ANSWER, *WINDOWS),
    "card_window_put": (CARD_ANSWER, *WINDOWS, c_uint32, PARTITION),
    "card_window_clear": (CARD_ANSWER, *WINDOWS, c_uint32),
    "card_window_count_used": (CARD_COUNT, *WINDOWS),
    "card_window_next_used": (CARD_NEXT, *WINDOWS, c_uint32),
    "card_window_read_slot": (CARD_SLOT_READ, *WINDOWS, c_uint32),
    "card_window_nth_used": (CARD_USED_READ, *WINDOWS, c_uint32),
    "card_window_list": (CARD_COUNT, *WINDOWS, LENT),
    "card_window_free_runs": (CARD_COUNT, *WINDOWS, ROW_LENT, ROW_LENT),
    "card_window_map_make": (MAP_MADE, *WINDOWS),
    "card_window_reader_copy": (COPY, *WINDOWS),
    "card_window_reader_count": (COUNT, *WINDOWS),
    "card_window_reader_next": (NEXT, *WINDOWS, c_uint32),
    "card_window_reader_slot": (SLOT_READ, *WINDOWS, c_uint32),
    "card_window_reader_list": (COUNT, *WINDOWS, LENT),
    "card_window_start_put": (UPDATE_STEP, *WINDOWS, c_uint32, PARTITION),
    "card_window_start_clear": (UPDATE_STEP, *WINDOWS, c_uint32),
    "card_window_next_stage": (UPDATE_STEP, *WINDOWS, c_uint32, UPDATE),
    "card_window_start_repair": (REPAIR_STEP, *WINDOWS),
    "card_window_next_repair": (REPAIR_STEP, *WINDOWS, c_uint32, REPAIR),
    "card_payload_place": (SPOT, LENT, c_uint64, c_uint32, c_size_t, c_size_t),
    "card_window_payload_place": (SPOT, *WINDOWS, c_uint32, c_size_t, c_size_t),
    "card_read_payload": (CARD_STORED, LENT, c_uint64, c_uint32, c_size_t, LENT),
}

# Document 02, 13/13: all that card.h says of labels and screen sets.
LABEL = structure(
    "card_label",
    8,
    [("year", c_uint16, 0), *fields_of(c_uint8, "month", "day", start=2), *fields_of(c_uint16, "style", "sheet", start=4)],
    labels.Label,
)
LABEL_READ = answer("card_label_read", 20, *fields_of(c_uint32, "place", "differs", start=4), ("label", LABEL, 12))
JUDGED = answer(
    "card_judged",
    24,
    *fields_of(c_uint32, "slot", "place", "differs", start=4),
    ("year", c_uint16, 16),
    *fields_of(c_uint8, "month", "day", start=18),
    ("style", c_uint16, 20),
)
DECLARED |= {
    "card_read_label": (LABEL_READ, LENT, c_uint64, c_uint32),
    "card_write_label": (CARD_ANSWER, LENT, c_uint64, c_uint32, LABEL),
    "card_judge": (JUDGED, LENT, c_uint64, LIST_LENT),
    "card_window_read_label": (LABEL_READ, *WINDOWS, c_uint32, LENT),
    "card_window_judge": (JUDGED, *WINDOWS, LIST_LENT, LENT),
}

# All that card.h says of text. A char is a byte.
VERSION = structure("card_version_numbers", 12, fields_of(c_uint32, "major", "minor", "patch"))
TEXT = answer("card_text", 16, ("length", c_size_t, 8))
GUID_OF_TEXT = answer("gpt_guid_of_text", 32, ("at", c_size_t, 8), ("guid", GUID, 16))
NAME_OF_TEXT = answer("gpt_name_of_text", 88, ("at", c_size_t, 8), ("name", c_uint16 * 36, 16))
DECLARED |= {
    "card_version": (VERSION,),
    "card_message": (TEXT, LENT, c_uint32, c_uint32, c_uint32),
    "gpt_guid_to_text": (TEXT, LENT, GUID),
    "gpt_guid_from_text": (GUID_OF_TEXT, LENT),
    "gpt_name_to_utf8": (TEXT, LENT, UNITS_LENT),
    "gpt_name_from_utf8": (NAME_OF_TEXT, LENT),
}


class Lent:
    """A copy of some bytes with guard bytes on both sides, at an address that need not be even, or at one for a row of numbers."""

    def __init__(self, data, kind):
        self.item, self.size = LENT_KINDS[kind]
        self.count = len(data) // self.size
        odd = len(data) % 7 if self.size == 1 else 0
        self.front = len(GUARD) + odd
        self.end = self.front + len(data)
        self.memory = bytearray(GUARD + GUARD[:odd] + data + GUARD)
        self.whole = (c_uint8 * len(self.memory)).from_buffer(self.memory)
        if self.size > 1 and ctypes.addressof(self.whole) % self.size:
            raise LayoutError("a row of numbers is not aligned")

    def pointer(self):
        """The address of the first lent byte."""
        return ctypes.cast(ctypes.addressof(self.whole) + self.front, POINTER(self.item))

    def content(self):
        """The lent bytes as they are now; a changed guard byte is an error."""
        if self.memory[: self.front].strip(b"\xa5") or self.memory[self.end :] != GUARD:
            raise LayoutError("a byte outside a lent slice was written")
        return bytes(self.memory[self.front : self.end])


def native(ctype, value):
    """A value of the model as the C value of that type."""
    if issubclass(ctype, ctypes.Array):
        return ctype(*(native(ctype._type_, item) for item in value)) if SHAPES.get(ctype._type_) else ctype(*value)
    if issubclass(ctype, ctypes.Structure):
        fields = [(field, kind) for field, kind in ctype._fields_ if field[0] != "_"]
        items = [getattr(value, field) for field, _ in fields] if SHAPES[ctype] else [value]
        return ctype(**{field: native(kind, item) for (field, kind), item in zip(fields, items)})
    return value


def plain(ctype, value):
    """A C value as the model's: tuples for structures, bytes for bytes."""
    if issubclass(ctype, ctypes.Array):
        if ctype._type_ is c_uint8:
            return bytes(value)
        return tuple(plain(ctype._type_, item) for item in value)
    if issubclass(ctype, ctypes.Structure):
        values = {field: plain(kind, getattr(value, field)) for field, kind in ctype._fields_ if field[0] != "_"}
        return SHAPES[ctype](**values) if SHAPES[ctype] else tuple(values.values())
    return value


def has_number(result):
    """Whether what a call comes back with is an answer, with the number first."""
    return result is Number or issubclass(result, ctypes.Structure) and result._fields_[0][0] == "number"


def parted(result, values):
    """The number, the other fields and the place of an answer. Where it says no place, the place is none."""
    fields = dict(zip((field for field, _ in result._fields_), values))
    number = fields.pop("number")
    where = (fields.pop("place"), fields.pop("differs")) if "differs" in fields else NOWHERE
    return number, tuple(fields.values()), where


def answered(result, value):
    """The number, the other fields and the place of what a call came back with."""
    if result is Number:
        return value.value, (), NOWHERE
    if not issubclass(result, ctypes.Structure):
        return 0, (value,), NOWHERE
    values = tuple(plain(result, value))
    return parted(result, values) if has_number(result) else (0, values, NOWHERE)


def bind(function, result, *kinds):
    """One call of the library with the model's arguments and answer."""
    slices = [[POINTER(LENT_KINDS[kind][0]), c_size_t] if kind in LENT_KINDS else [kind] for kind in kinds]
    function.argtypes = [kind for kinds_here in slices for kind in kinds_here]
    function.restype = result

    def run(*args):
        if len(args) != len(kinds):
            raise TypeError(f"{len(kinds)} arguments are due")
        lent, given = [], []
        for kind, arg in zip(kinds, args):
            if kind in LENT_KINDS:
                lent.append(Lent(bytes(arg), kind))
                given += [lent[-1].pointer(), lent[-1].count]
            else:
                given.append(native(kind, arg))
        number, values, where = answered(result, function(*given))
        return number, values, tuple(piece.content() for piece in lent), where

    return run


def load(path):
    """All calls of the library at a path, by name."""
    library = ctypes.CDLL(os.path.abspath(path))
    return {name: bind(getattr(library, name), *declared) for name, declared in DECLARED.items()}
