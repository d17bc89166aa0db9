"""Cards by their two windows, written down by UEFI's tables for any block count, for the cases with known answers of document 02, 10/13."""

import struct
import zlib

from entries import ROW, record_bytes
from foreign import array_bytes, header_block
from known import GUID, own_guid, record
from known_copies import at, filled, first_usable
from model import CALLS
from stages import NO_REPAIR, NO_UPDATE
from units import NIL, NOWHERE, guid_bytes

TERABYTES = 2**43
# Of a block size and a block count: the back header's block, the last usable block, the back array's first block, and the protective record's size.
CARDS = {
    (512, 68): (67, 34, 35, 67),
    (512, 75): (74, 41, 42, 74),
    (512, 2**32 - 1): (4294967294, 4294967261, 4294967262, 4294967294),
    (512, 2**32): (4294967295, 4294967262, 4294967263, 4294967295),
    (512, 2**32 + 1): (4294967296, 4294967263, 4294967264, 4294967295),
    (512, TERABYTES // 512): (17179869183, 17179869150, 17179869151, 4294967295),
    (512, 2**55 - 1): (36028797018963966, 36028797018963933, 36028797018963934, 4294967295),
    (4096, 12): (11, 6, 7, 11),
    (4096, 19): (18, 13, 14, 18),
    (4096, TERABYTES // 4096): (2147483647, 2147483642, 2147483643, 2147483647),
    (4096, 2**32 + 1): (4294967296, 4294967291, 4294967292, 4294967295),
    (4096, 2**52 - 1): (4503599627370494, 4503599627370489, 4503599627370490, 4294967295),
}
# The cards with room for some_slots: the smallest of each block size is left out.
ROOMY = [card for card in CARDS if card not in ((512, 68), (4096, 12))]
LARGE = [card for card in CARDS if card[1] > 75]
LENGTHS = {512: (34 * 512, 33 * 512), 4096: (6 * 4096, 5 * 4096)}


def block_zero(b, size):
    """Block 0 of a laid card: the protective MBR in 512 bytes, and after them what stood there, by filled()."""
    records = bytes.fromhex("00000200EEFFFFFF01000000") + struct.pack("<I", size) + bytes(48)
    return bytes(446) + records + b"\x55\xaa" + filled(b)[512:]


def packed(slots):
    """The array of a card with these records in its slots."""
    return array_bytes({slot: record_bytes(held) for slot, held in slots.items()}, 128, 128)


def windows_of(b, blocks, slots, front=None, back=None, other=None):
    """The windows of a card with these records in its slots. Block 0 holds any bytes, as no call but lay looks at it. front and back have fields
    of one header that are odd, and other the slots of the back array if they are others."""
    last, high, start, _ = CARDS[b, blocks]
    fields = {"usable": (first_usable(b), high), "guid": guid_bytes(GUID)}
    array, other = packed(slots), packed(slots if other is None else other)
    head = header_block(b, 1, last, (2, 128, 128, zlib.crc32(array)), **fields | (front or {}))
    tail = header_block(b, last, 1, (start, 128, 128, zlib.crc32(other)), **fields | (back or {}))
    return filled(b) + head + array, other + tail


def changed(window, place, data):
    """A window with bytes at a place; a place below 0 counts from its end."""
    place += len(window) if place < 0 else 0
    return window[:place] + data + window[place + len(data) :]


def some_slots(b, blocks):
    """Three slots that leave four runs of one free block: the first usable one, the third, the last but two and the last."""
    low, high = first_usable(b), CARDS[b, blocks][1]
    return {1: record(1, low + 1), 64: record(64, high - 1), 128: record(128, low + 3, high - 3)}


def first_calls(b):
    """All window calls but the later stages, with arguments after the block size that a card with some_slots accepts."""
    new = at(99, b, 0)
    return {
        "card_window_lay": (GUID,),
        "card_window_check": (),
        "card_window_put": (99, new),
        "card_window_clear": (1,),
        "card_window_count_used": (),
        "card_window_next_used": (0,),
        "card_window_read_slot": (1,),
        "card_window_nth_used": (0,),
        "card_window_list": (filled(128 * ROW),),
        "card_window_free_runs": (filled(8 * 129), filled(8 * 129)),
        "card_window_map_make": (),
        "card_window_reader_copy": (),
        "card_window_reader_count": (),
        "card_window_reader_next": (0,),
        "card_window_reader_slot": (1,),
        "card_window_reader_list": (filled(128 * ROW),),
        "card_window_start_put": (99, new),
        "card_window_start_clear": (1,),
        "card_window_start_repair": (),
        "card_window_payload_place": (1, 0, 0),
    }


def refused_last(b):
    """The same calls with arguments that they refuse by themselves, where they can: by 18, 19 or 15."""
    nil = at(99, b, 0)._replace(part_type_guid=NIL)
    return first_calls(b) | {
        "card_window_put": (0, nil),
        "card_window_clear": (129,),
        "card_window_read_slot": (0,),
        "card_window_list": (b"",),
        "card_window_free_runs": (b"", b""),
        "card_window_reader_slot": (2**32 - 1,),
        "card_window_reader_list": (b"",),
        "card_window_start_put": (128, nil),
        "card_window_start_clear": (0,),
        "card_window_payload_place": (0, 2**64 - 1, 2**64 - 1),
    }


def later_calls(b, blocks):
    """The later stages, with a stage and a state that they accept on a card of so many blocks."""
    fixed = {"next": 2, "b": b, "len": blocks * b, "guid": own_guid(3), "parts": 5}
    return {
        "card_window_next_stage": (2, NO_UPDATE._replace(**fixed, slot=7, entry=filled(128))),
        "card_window_next_repair": (2, NO_REPAIR._replace(**fixed)),
    }


def refusal(calls, name, windows, blocks, b, rest, number, where=NOWHERE):
    """A call's answer, and the one that is due if it refuses by a number: every other field zero, every lent byte as it came."""
    lent = (*windows, *(arg for arg in rest if isinstance(arg, bytes)))
    return calls[name](*windows, blocks, b, *rest), (number, CALLS[name].zero, lent, where)
