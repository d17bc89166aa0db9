"""Small cards for the cases with known answers, and damage to them whose check sums are right again."""

import entries
import images
import maps
import model
from labels import Label
from units import Guid, guid_bytes, guid_from

GUID = guid_from(bytes(range(16)))
BOTH = ("front", "back")
B = 512
BLOCKS = 73
FIRST, LAST = 34, 39


def own_guid(n):
    """The n-th of several GUIDs; no two are equal."""
    return Guid(n, 0x1234, 0x5678, b"fieldmap")


def record(n, first, last=None):
    """A record with the n-th GUID and these blocks."""
    blocks = {"first_lba": first, "last_lba": first if last is None else last}
    return entries.ZERO._replace(part_type_guid=GUID, part_guid=own_guid(n), **blocks)


def card(calls, slots):
    """A card of 73 blocks of 512 bytes, so that 34 to 39 are usable, with these slots put."""
    image = calls["card_lay"](bytes(BLOCKS * B), B, GUID)[2][0]
    for slot, held in slots.items():
        image = calls["card_put"](image, B, slot, held)[2][0]
    return image


def table(side):
    """The byte places of one table's header and array."""
    places = images.places(BLOCKS * B, B)
    return (places.front, places.front_array) if side == "front" else (places.back, places.back_array)


def sealed(image, sides=BOTH):
    """The card with the sums of these tables right again."""
    for side in sides:
        image = images.sealed(image, B, side == "front", True)
    return image


def with_entry(image, slot, place, data, sides=BOTH):
    """The card with bytes stored in a slot's entry in these tables, whose sums are right again."""
    for side in sides:
        image = images.stored(image, table(side)[1] + entries.ENTRY * (slot - 1) + place, data)
    return sealed(image, sides)


def with_header(image, place, data, sides, repaired=True):
    """The card with bytes stored in the headers of these tables; their own sums are right again if asked for."""
    for side in sides:
        image = images.stored(image, table(side)[0] + place, data)
        image = images.sealed(image, B, side == "front", False) if repaired else image
    return image


def with_guid(image, slot, guid, sides=BOTH):
    """The card with another partition GUID in a slot of these tables, whose sums are right again."""
    return with_entry(image, slot, 16, guid_bytes(guid), sides)


def checked_calls(slot, held):
    """The calls that begin with the card check, with arguments that a good card with this slot used accepts."""
    return {
        "card_check": (B,),
        "card_put": (B, slot, held),
        "card_clear": (B, slot),
        "card_start_put": (B, slot, held),
        "card_start_clear": (B, slot),
        "card_write_payload": (B, slot, 0, b"map"),
        "card_payload_place": (B, slot, 0, 3),
        "card_read_payload": (B, slot, 0, b"map"),
        "card_read_label": (B, slot),
        "card_write_label": (B, slot, Label(2024, 5, 17, 3, 1)),
        "card_judge": (B, bytes([slot, 0, 0, 0])),
        "card_count_used": (B,),
        "card_next_used": (B, 0),
        "card_read_slot": (B, slot),
        "card_nth_used": (B, 0),
        "card_list": (B, bytes(128 * entries.ROW)),
        "card_free_runs": (B, bytes(8 * 129), bytes(8 * 129)),
        "card_map_make": (B,),
        "card_map_put": (B, slot, held, maps.NONE),
        "card_map_clear": (B, slot, maps.NONE),
    }


def refused_alike(calls, name, image, slot, held, number, where=None):
    """That each call which begins with the card check gives this number on an image, at this place if one is given, with
    every other field zero, and leaves every lent byte."""
    for call, args in checked_calls(slot, held).items():
        lent = tuple(arg for arg in (image, *args) if isinstance(arg, bytes))
        got = calls[call](image, *args)
        due = (number, model.CALLS[call].zero, lent, got[3] if where is None else where)
        yield f"{name}, {call}", got, due
