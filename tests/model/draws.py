"""Random values with a taste for edges: numbers, GUIDs, names, records, headers, settings and MBRs."""

import random

import builder
import entries
import headers
import mbr
from units import NIL, Guid, guid_bytes, guid_from

EDGES = [0, 1, 2, 2**31 - 1, 2**31, 2**32 - 2, 2**32 - 1, 2**32, 2**52 - 1, 2**52, 2**55 - 1, 2**55, 2**63 - 1, 2**63, 2**64 - 2, 2**64 - 1]
BAD_BLOCK_SIZES = [0, 1, 511, 513, 1024, 4095, 4097, 2**32 + 512, 2**32 + 4096, 2**63 + 512, 2**64 - 1]
# The last six are slots 1 and 128 again if a call drops their high bits.
SLOTS = [0, 1, 2, 3, 127, 128, 129, 2**31, 2**32 - 1, 257, 384, 65537, 65664, 2**31 + 1, 2**31 + 128]
ENTRY_SIZES = [0, 1, 127, 128, 129, 256, 4096, 4097, 2**31, 2**32 - 1]
# A reserved part of 2**61 is 0 again, and one of 2**45 is the owner's 1, if a call shifts it without a test.
RESERVED = [1, 2, 2**44, 2**45 - 1, 2**45, 2**45 + 1, 2**48, 2**60, 2**61, 2**61 + 1, 2**63, 2**64 - 1]
COUNTS = [0, 1, 4, 127, 128, 129, 256, 2**25, 2**32 - 1]


class Draw:
    """A source of random values that a seed determines."""

    def __init__(self, seed):
        self.random = random.Random(seed)
        self.pick = self.random.choice
        self.below = self.random.randrange
        self.data = self.random.randbytes

    def chance(self, percent):
        """True so many times of a hundred."""
        return self.below(100) < percent

    def number(self, bits=64, near=()):
        """A number of at most so many bits: near a given one, at an edge, or of any width."""
        kind = self.below(20)
        if near and kind < 11:
            value = self.pick(near) + self.pick((-1, 0, 0, 0, 1))
        elif near and kind == 11:
            value = self.pick(near) + (1 << self.pick((8, 16, 31, 32, 63)))
        elif kind < 17:
            value = self.pick(EDGES)
        else:
            value = self.random.getrandbits(1 + self.below(bits))
        return max(value, 0) & (1 << bits) - 1

    def block_size(self, b):
        """Mostly the given block size, at times the other one or a bad one."""
        return b if self.chance(93) else self.pick([512, 4096] + BAD_BLOCK_SIZES)

    def guid(self):
        """A GUID, at times nil or with one byte alone."""
        kind = self.below(12)
        if kind == 0:
            return NIL
        if kind == 1:
            return self.pick([Guid(1, 0, 0, bytes(8)), Guid(0, 1, 0, bytes(8)), Guid(0, 0, 256, bytes(8)), Guid(0, 0, 0, bytes(7) + b"\1")])
        return self.any_guid()

    def any_guid(self):
        """A GUID that no other slot has, but for a chance that never comes."""
        return guid_from(self.data(16))

    def near_guid(self, guid):
        """A GUID that differs from the given one in one bit."""
        raw = bytearray(guid_bytes(guid))
        raw[self.below(16)] ^= 1 << self.below(8)
        return guid_from(bytes(raw))

    def name(self):
        """36 units: empty, plain, full, with a zero inside, or with lone surrogates."""
        kind = self.below(7)
        if kind == 0:
            return (0,) * 36
        if kind == 1:
            return (0,) + (0xFFFF,) * 35
        units = [self.pick((65, 0x20AC, 0xD800, 0xDFFF, 0xFFFF, self.below(65536))) for _ in range(36)]
        if kind < 4:
            units[self.pick((0, 1, 34, 35, self.below(36)))] = 0
        elif kind < 6:
            end = self.below(37)
            units[end:] = [0] * (36 - end)
        return tuple(units)

    def flags(self):
        """Three flags, a reserved part that is zero, at an edge or any, and the owner's number."""
        reserved = 0 if self.chance(50) else self.pick((self.pick(RESERVED), self.below(2**45), self.number()))
        return self.below(2), self.below(2), self.below(2), reserved, self.number(16)

    def rows(self, count):
        """A lent row: exact, one byte short, longer, or of any length."""
        exact = entries.ROW * count
        lengths = (exact, exact, exact - 1, exact + 1, exact - entries.ROW, exact + entries.ROW + self.below(200), self.below(300))
        return self.data(max(self.pick(lengths), 0))

    def record(self, near=()):
        """A partition record with any blocks, near the given ones at times."""
        first = self.number(64, near)
        last = max(first + self.pick((-1, 0, 0, 1, 5)), 0) & 2**64 - 1 if self.chance(50) else self.number(64, near)
        return entries.Partition(self.guid(), self.guid(), first, last, *self.flags(), self.name())

    def header(self, near=()):
        """A header with any fields, near the given block numbers at times."""
        blocks = [self.number(64, near) for _ in range(5)]
        small = [self.number(32) for _ in range(4)]
        size = self.pick(ENTRY_SIZES) if self.chance(60) else 128
        revision = headers.Revision(self.number(16), self.number(16))
        return headers.Header(revision, *small[:3], *blocks[:4], self.guid(), blocks[4], self.pick(COUNTS), size, small[3])

    def shape(self):
        """An entry count and an entry size for the builder, at times with a product near 32 bits."""
        if self.chance(25):
            return self.pick([(128, 33554431), (128, 33554432), (65536, 65535), (65536, 65536), (2**32 - 1, 1), (2**32 - 1, 2), (1, 2**32 - 1)])
        if self.chance(60):
            return self.pick([(128, 128), (129, 128), (4, 128), (128, 256), (0, 128), (128, 0)])
        return self.number(32, COUNTS), self.number(32, ENTRY_SIZES)

    def built_numbers(self, b):
        """Numbers for the builder: count, size, backup and the set usable blocks, near the place where the answer turns."""
        count, size = self.shape()
        blocks = -(-max(count, 128) * size // b)
        exact = -(-count * size // b)
        backup = self.number(64, [0, 1, blocks, blocks + 1, 2 * blocks + 3, 2 * exact + 3, 2 * blocks + 40])
        first = 0 if self.chance(50) else self.number(64, [2 + blocks, backup, 34])
        last = 0 if self.chance(50) else self.number(64, [max(backup - blocks - 1, 0), first, 100, 2**64 - 1])
        return count, size, backup, first, last

    def settings(self, b):
        """Settings of a new builder."""
        count, size, backup, first, last = self.built_numbers(b)
        return builder.Settings(self.guid(), backup, first, last, count, size, self.below(2))

    def header_to_copy(self, b):
        """A header that a builder is copied from."""
        count, size, backup, first, last = self.built_numbers(b)
        primary = self.pick((1, 1, 1, 0, 2, 5, backup, self.number(64, [backup])))
        own, other = (primary, backup) if self.chance(50) else (backup, primary)
        shape = {"first_usable": first, "last_usable": last, "num_parts": count, "part_size": size}
        return self.header()._replace(current_lba=own, backup_lba=other, **shape)

    def mbr_record(self):
        """An MBR record."""
        if self.chance(20):
            return self.pick((mbr.ZERO_RECORD, mbr.protective(self.number(32))))
        return mbr.PartRecord(*self.data(8), self.number(32), self.number(32))

    def mbr(self):
        """An MBR with any fields."""
        code = bytes(440) if self.chance(20) else self.data(440)
        return mbr.Mbr(code, self.data(4), self.number(16), tuple(self.mbr_record() for _ in range(4)))
