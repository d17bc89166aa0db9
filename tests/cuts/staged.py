"""The calls that a pulled card needs, by ctypes as include/card.h declares them. Each takes an image as a bytearray and changes it where it
stands; a slot's content goes in and comes out as its 128 bytes on the card."""

import ctypes
import struct
from ctypes import POINTER, c_bool, c_size_t, c_uint8, c_uint16, c_uint32, c_uint64

ROW = 136
ROWS = 128 * ROW


def structure(name, size, *fields):
    """A structure of card.h, which has this size there."""
    kind = type(name, (ctypes.Structure,), {"_fields_": fields})
    if ctypes.sizeof(kind) != size:
        raise TypeError(f"the size of {name} is {ctypes.sizeof(kind)}, not {size}")
    return kind


GUID = structure("gpt_guid", 16, ("time_low", c_uint32), ("time_mid", c_uint16), ("time_high", c_uint16), ("tail", c_uint8 * 8))
FLAGS = structure(
    "gpt_flags",
    16,
    ("reserved", c_uint64),
    ("owner", c_uint16),
    ("required", c_bool),
    ("no_block_io", c_bool),
    ("legacy_bootable", c_bool),
)
PARTITION = structure(
    "gpt_partition",
    136,
    ("part_type_guid", GUID),
    ("part_guid", GUID),
    ("first_lba", c_uint64),
    ("last_lba", c_uint64),
    ("flags", FLAGS),
    ("name", c_uint16 * 36),
)
PLACE = (("number", c_uint32), ("slot", c_uint32), ("place", c_uint32), ("differs", c_uint32))
ANSWER = structure("card_answer", 16, *PLACE)
UPDATE = structure(
    "card_update",
    176,
    ("next", c_uint32),
    ("slot", c_uint32),
    ("b", c_uint64),
    ("len", c_uint64),
    ("entry", c_uint8 * 128),
    ("guid", GUID),
    ("parts", c_uint32),
)
REPAIR = structure("card_repair", 48, ("next", c_uint32), ("back", c_bool), ("b", c_uint64), ("len", c_uint64), ("guid", GUID), ("parts", c_uint32))
UPDATE_STEP = structure("card_update_step", 192, *PLACE, ("state", UPDATE))
REPAIR_STEP = structure("card_repair_step", 64, *PLACE, ("state", REPAIR))
COPY = structure("card_copy", 8, ("number", c_uint32), ("back", c_bool))
COUNT = structure("gpt_count", 8, ("number", c_uint32), ("count", c_uint32))
LENT = (POINTER(c_uint8), c_size_t)
DECLARED = {
    "card_lay": (ANSWER, *LENT, c_uint64, GUID),
    "card_check": (ANSWER, *LENT, c_uint64),
    "card_put": (ANSWER, *LENT, c_uint64, c_uint32, PARTITION),
    "card_clear": (ANSWER, *LENT, c_uint64, c_uint32),
    "card_start_put": (UPDATE_STEP, *LENT, c_uint64, c_uint32, PARTITION),
    "card_start_clear": (UPDATE_STEP, *LENT, c_uint64, c_uint32),
    "card_next_stage": (UPDATE_STEP, *LENT, c_uint64, c_uint32, UPDATE),
    "card_start_repair": (REPAIR_STEP, *LENT, c_uint64),
    "card_next_repair": (REPAIR_STEP, *LENT, c_uint64, c_uint32, REPAIR),
    "card_reader_copy": (COPY, *LENT, c_uint64),
    "card_reader_count": (COUNT, *LENT, c_uint64),
    "card_reader_list": (COUNT, *LENT, c_uint64, *LENT),
}


def lent(data):
    """The pointer and the length of a bytearray."""
    return ctypes.cast((c_uint8 * len(data)).from_buffer(data), POINTER(c_uint8)), len(data)


def record_of(raw):
    """The record of an entry's 128 bytes."""
    first, last, bits = struct.unpack_from("<QQQ", raw, 32)
    guids = (GUID.from_buffer_copy(raw, place) for place in (0, 16))
    flags = FLAGS(bits >> 3 & (1 << 45) - 1, bits >> 48, bits & 1, bits >> 1 & 1, bits >> 2 & 1)
    return PARTITION(*guids, first, last, flags, (c_uint16 * 36).from_buffer_copy(raw, 56))


class Library:
    """The built library. A call's answer is its number and what else is asked of it."""

    def __init__(self, path):
        library = ctypes.CDLL(path)
        self.calls = {name: getattr(library, name) for name in DECLARED}
        for name, (result, *kinds) in DECLARED.items():
            self.calls[name].restype, self.calls[name].argtypes = result, kinds

    def call(self, name, image, *args):
        """One call on an image."""
        return self.calls[name](*lent(image), *args)

    def lay(self, image, b, guid):
        """Lays an empty card with the 16 bytes of a disk GUID."""
        return self.call("card_lay", image, b, GUID.from_buffer_copy(guid)).number

    def check(self, image, b):
        """The card check: its number, its place, and the slot that differs."""
        answer = self.call("card_check", image, b)
        return answer.number, answer.place, answer.differs

    def plain(self, image, b, slot, raw):
        """The plain put, or clear where the bytes are zeros."""
        put = any(raw)
        return self.call(f"card_{'put' if put else 'clear'}", image, b, slot, *([record_of(raw)] if put else [])).number

    def start(self, image, b, slot, raw):
        """Stage one of a put, or of a clear where the bytes are zeros: its number and the state."""
        put = any(raw)
        answer = self.call(f"card_start_{'put' if put else 'clear'}", image, b, slot, *([record_of(raw)] if put else []))
        return answer.number, answer.state

    def next_stage(self, image, b, stage, state):
        """A later stage of an update."""
        answer = self.call("card_next_stage", image, b, stage, state)
        return answer.number, answer.state

    def start_repair(self, image, b):
        """Stage one of a repair."""
        answer = self.call("card_start_repair", image, b)
        return answer.number, answer.state

    def next_repair(self, image, b, stage, state):
        """A later stage of a repair."""
        answer = self.call("card_next_repair", image, b, stage, state)
        return answer.number, answer.state

    def copy(self, image, b):
        """Whether the copy that the reader takes is the back."""
        answer = self.call("card_reader_copy", image, b)
        return answer.number, int(answer.back)

    def count(self, image, b):
        """How many slots the reader shows."""
        answer = self.call("card_reader_count", image, b)
        return answer.number, answer.count

    def listed(self, image, b):
        """The reader's listing: its number, the count, and the whole lent row."""
        out = bytearray(b"\xee" * ROWS)
        answer = self.call("card_reader_list", image, b, *lent(out))
        return answer.number, answer.count, bytes(out)
