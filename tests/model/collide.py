"""Arrays with equal check sums, made on purpose (document 02, 6/13: "Sums equal by accident are covered too")."""

import struct

from sums import crc32

TAIL = 24


def with_sum(data, place, due):
    """The bytes with four of them changed, at a place, so that their check sum is the due one.

    Turning a bit over changes the sum by a value that depends on the bit's place alone. The 32 values of four neighbouring bytes are
    independent, so that each change of the sum is a choice of these bits in exactly one way.
    """
    bare = data[:place] + bytes(4) + data[place + 4 :]
    base, changes = crc32(bare), {}
    for bit in range(32):
        value, choice = crc32(bare[:place] + struct.pack("<I", 1 << bit) + bare[place + 4 :]) ^ base, 1 << bit
        while value.bit_length() in changes:
            held, chosen = changes[value.bit_length()]
            value, choice = value ^ held, choice ^ chosen
        changes[value.bit_length()] = value, choice
    left, choice = base ^ due, 0
    while left:
        held, chosen = changes[left.bit_length()]
        left, choice = left ^ held, choice ^ chosen
    return bare[:place] + struct.pack("<I", choice) + bare[place + 4 :]


def entry_with_sum(array, slot, raw, due):
    """The 128 bytes of an entry with four bytes of its partition GUID changed, so that the array with it in a slot has the due sum."""
    start = 128 * (slot - 1)
    whole = with_sum(array[:start] + raw + array[start + 128 :], start + TAIL, due)
    return whole[start : start + 128]
