"""What every part of the model uses: widths, GUIDs, refusals and the shape of an answer.

A call of the model is a plain function. It returns (number, values, buffers, where): the number of document 01's table, the
other fields of the answer in the order of card.h, the content of every lent buffer after the call, and where the card check
failed. Document 02, 5/13: "a reader who drops the new part sees the old answer", so the new part stands apart: the place and
the slot that differs.
"""

import functools
import struct
from collections import namedtuple

BLOCK_SIZES = (512, 4096)
ALL_32 = 2**32 - 1
ALL_64 = 2**64 - 1
NOWHERE = (0, 0)

Guid = namedtuple("Guid", "time_low time_mid time_high tail")
NIL = Guid(0, 0, 0, bytes(8))
GUID_LAYOUT = struct.Struct("<IHH8s")


class Refused(Exception):
    """A refusal: its number, which of several tests with that number gave it, the slot that 22 and 25 name, and where the card
    check failed."""

    def __init__(self, number, step="", values=None, where=NOWHERE):
        super().__init__(number)
        self.number = number
        self.step = step
        self.values = values
        self.where = where


def call(zero, lent=()):
    """Makes a function a call. zero is what the other fields hold beside a refusal; lent names the arguments that are lent buffers.

    The function works on copies of the lent buffers and changes them where they stand. Document 01, Numbers a call can come back with:
    "A refusal .. changes no lent byte", so a refusal hands back the buffers as they came.
    """

    def mark(body):
        @functools.wraps(body)
        def answer(*args):
            work = [bytearray(arg) if i in lent else arg for i, arg in enumerate(args)]
            try:
                values = body(*work)
            except Refused as refusal:
                answer.step = refusal.step
                values = zero if refusal.values is None else refusal.values
                return refusal.number, values, tuple(bytes(args[i]) for i in lent), refusal.where
            answer.step = ""
            return 0, values, tuple(bytes(work[i]) for i in lent), NOWHERE

        answer.lent = lent
        answer.zero = zero
        answer.step = ""
        return answer

    return mark


def need_block_size(b):
    """Document 01, Numbers: 1 if the block size is not 512 or 4,096, always first."""
    if b not in BLOCK_SIZES:
        raise Refused(1)


def fits(value, step, bits=64):
    """Document 01, Numbers: 3 if a product or sum passes its width."""
    if value >= 1 << bits:
        raise Refused(3, step)
    return value


def length_of(buffer):
    """How many bytes a buffer has. An image of which only the windows are there (windows.py) says so itself, since len() ends at 2**63."""
    return buffer.length if hasattr(buffer, "length") else len(buffer)


def need_inside(buffer, start, length, step=""):
    """Document 01, Numbers: 2 if the byte range is not inside; an empty range is inside if it ends at or before the end."""
    if start + length > length_of(buffer):
        raise Refused(2, step)


def guid_from(raw):
    """Document 01, Units and GUID: one 32-bit and two 16-bit little-endian fields, then 8 bytes in order."""
    return Guid(*GUID_LAYOUT.unpack(raw))


def guid_bytes(guid):
    """Document 01, Units and GUID: the 16 bytes of a GUID's fields."""
    return GUID_LAYOUT.pack(*guid)
