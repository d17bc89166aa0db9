"""The check sum (document 01, Check sum; document 02, 4/13) and the sum of an array after one slot (document 02, 12/13)."""

import zlib

from units import Refused, call

MEBIBYTE = 1 << 20
FRESH = 0


def crc32_by_bits(data, running=FRESH):
    """Document 01, Check sum: reflected, polynomial EDB88320, start and final inversion all ones. Slow, kept as the
    definition.

    Document 02, 4/13: it goes on from a running value, which is a finished sum. So the inversion at the end of one piece
    is undone at the start of the next, and a fresh start, 0, is the register of all ones.
    """
    register = running ^ 0xFFFFFFFF
    for byte in data:
        register ^= byte
        for _ in range(8):
            register = register >> 1 ^ (0xEDB88320 if register & 1 else 0)
    return register ^ 0xFFFFFFFF


def crc32_next(running, data):
    """Document 02, 4/13: "take a running value and give the next"; the same sum by zlib, and fixed.py compares the two."""
    return zlib.crc32(data, running)


def crc32(data):
    """Document 02, 4/13: "the old whole-slice answer becomes the case of a fresh start"."""
    return crc32_next(FRESH, data)


@call(zero=(0,), lent=(0,))
def gpt_crc32(data):
    """Document 01, Check sum: empty input gives 0."""
    return (crc32(data),)


@call(zero=(0,), lent=(1,))
def gpt_crc32_next(running, data):
    """Document 02, 4/13: any running value is taken; of no bytes the next value is the running one."""
    return (crc32_next(running, data),)


@call(zero=(0,), lent=(1, 2))
def gpt_slot_sum(old, was, now, after):
    """Document 02, 12/13: 2 if either piece is not 128 bytes, then 3 if 128 and the bytes after pass 1 MiB.

    The sums of two runs of equal length differ by a value that depends on the difference of their bytes alone. So the old sum is changed
    by the difference between the two pieces' sums, each piece followed by as many zeros as bytes follow the slot.
    """
    if len(was) != 128 or len(now) != 128:
        raise Refused(2, "was" if len(was) != 128 else "is")
    if 128 + after > MEBIBYTE:
        raise Refused(3)
    zeros = bytes(after)
    return (old ^ crc32(was + zeros) ^ crc32(now + zeros),)
