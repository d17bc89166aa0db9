"""Images as lists of steps: a start, calls of the model and damage. A list of steps always makes the same bytes, so it can be shortened."""

import random
import struct
from collections import namedtuple

import ends
import entries
import headers
import model
from sums import crc32
from units import guid_from

FIELDS = {
    "revision": (8, 4),
    "header size": (12, 4),
    "check sum": (16, 4),
    "reserved": (20, 4),
    "current": (24, 8),
    "backup": (32, 8),
    "first usable": (40, 8),
    "last usable": (48, 8),
    "disk GUID": (56, 16),
    "array start": (72, 8),
    "entry count": (80, 4),
    "entry size": (84, 4),
    "array sum": (88, 4),
}
Places = namedtuple("Places", "front back front_array back_array first_usable last_usable")


def places(length, b):
    """The byte places of a card's tables, and its usable blocks; None where the image has no room for a card."""
    blocks, array = length // b, 16384 // b
    if blocks - 1 < 2 * array + 3:
        return None
    return Places(b, (blocks - 1) * b, 2 * b, (blocks - 1 - array) * b, 2 + array, blocks - array - 2)


def stored(image, place, data):
    """The image with bytes stored; it stays as it is where they do not fit."""
    if place < 0 or place + len(data) > len(image):
        return image
    return image[:place] + data + image[place + len(data) :]


def sealed(image, b, front, with_array):
    """The image with one header's check sum repaired, and before that the sum of its array if asked for."""
    card = places(len(image), b)
    if card is None:
        return image
    header, array = (card.front, card.front_array) if front else (card.back, card.back_array)
    if with_array:
        image = stored(image, header + 88, struct.pack("<I", crc32(image[array : array + 16384])))
    return stored(image, header + 16, struct.pack("<I", headers.header_sum(image[header : header + 92])))


def flipped(image, place, bit):
    """The image with one bit turned over."""
    return stored(image, place, bytes([image[place] ^ 1 << bit])) if place < len(image) else image


def applied(image, step):
    """The image after one step."""
    kind, *args = step
    if kind == "start":
        length, fill = args
        return random.Random(fill).randbytes(length) if fill else bytes(length)
    if kind == "call":
        name, *rest = args
        return ends.left(name, image, rest, model.CALLS[name](*ends.given(name, image, rest))[2])
    if kind == "resize":
        return image[: args[0]].ljust(args[0], b"\0")
    return {"store": stored, "flip": flipped, "seal": sealed}[kind](image, *args)


def made_from(image, steps):
    """The image after some steps."""
    for step in steps:
        image = applied(image, step)
    return image


def made(steps):
    """The image that a list of steps makes; the first one is its start."""
    return made_from(b"", steps)


def used_entries(image, b):
    """The used slots in the front array with their 128 bytes."""
    card = places(len(image), b)
    if card is None:
        return {}
    array = image[card.front_array : card.front_array + 16384]
    return {slot: entries.entry_at(array, slot) for slot in entries.present_slots(array)}


def used_blocks(image, b):
    """The used slots in the front array with their first and last blocks, as the bytes have them."""
    return {slot: struct.unpack("<QQ", raw[32:48]) for slot, raw in used_entries(image, b).items()}


def used_guids(image, b):
    """The used slots in the front array with their partition GUIDs."""
    return {slot: guid_from(raw[16:32]) for slot, raw in used_entries(image, b).items()}


def free_blocks(image, b):
    """The usable blocks that no used slot has, in order."""
    card = places(len(image), b)
    if card is None:
        return []
    taken = set()
    for first, last in used_blocks(image, b).values():
        taken.update(range(max(first, card.first_usable), min(last, card.last_usable) + 1))
    return [block for block in range(card.first_usable, card.last_usable + 1) if block not in taken]
