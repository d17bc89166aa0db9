"""Text (card.h, "text"): the library's version, the words of a number, and GUIDs and names as text."""

import pathlib
import re
import struct

import words
from units import NIL, Guid, Refused, call
from utf import character, characters, fault, utf8, utf16

HEADER = pathlib.Path(__file__).resolve().parents[2] / "include" / "card.h"
NAME = 36
GUID_TEXT = 36
# RFC 9562, section 4: 4, 2, 2, 2 and 6 octets as hexadecimal digits, with a dash between them.
DASHES = (8, 13, 18, 23)
DIGITS = {digit: value for value, pair in enumerate(zip(b"0123456789abcdef", b"0123456789ABCDEF")) for digit in pair}


def stored(out, text):
    """Stores a text and a zero behind it; 2 where there is no room for both. The answer is the text's length."""
    if len(out) < len(text) + 1:
        raise Refused(2)
    out[: len(text) + 1] = text + b"\0"
    return (len(text),)


@call(zero=())
def card_version():
    """card.h: the version of the library, as CARD_VERSION is the header's; the two are built together."""
    return tuple(int(part) for part in re.search(r'#define CARD_VERSION "(\d+)\.(\d+)\.(\d+)"', HEADER.read_text()).groups())


@call(zero=(0,), lent=(0,))
def card_message(out, number, place, slot):
    """card.h: the words of a number, with the place and the slot that it names."""
    return stored(out, words.message(number, place, slot).encode("ascii"))


@call(zero=(0,), lent=(0,))
def gpt_guid_to_text(out, guid):
    """RFC 9562, section 4: the fields one after the other, each from its highest digit on; the eight bytes of the tail as they stand."""
    tail = "".join(f"{byte:02x}" for byte in guid.tail)
    text = f"{guid.time_low:08x}-{guid.time_mid:04x}-{guid.time_high:04x}-{tail[:4]}-{tail[4:]}"
    return stored(out, text.encode("ascii"))


def no_guid(at, step):
    """39, with the place of the first wrong byte."""
    return Refused(39, step, (at, NIL))


@call(zero=(0, NIL), lent=(0,))
def gpt_guid_from_text(text):
    """card.h: 39 at the first wrong byte; "a text that is too short is wrong where it ends, and one that is too long at 36"."""
    value = 0
    for at, byte in enumerate(text[:GUID_TEXT]):
        if at in DASHES:
            if byte != ord("-"):
                raise no_guid(at, "dash")
        elif byte not in DIGITS:
            raise no_guid(at, "digit")
        else:
            value = value << 4 | DIGITS[byte]
    if len(text) != GUID_TEXT:
        raise no_guid(min(len(text), GUID_TEXT), "short" if len(text) < GUID_TEXT else "long")
    fields = struct.unpack(">IHH8s", value.to_bytes(16, "big"))
    return 0, Guid(*fields)


def units_of(lent):
    """card.h, gpt_name_to_utf8: the units before the first zero, at most 36 of those lent."""
    units = struct.unpack_from(f"<{min(len(lent) // 2, NAME)}H", lent)
    return units[: units.index(0)] if 0 in units else units


@call(zero=(0,), lent=(0, 1))
def gpt_name_to_utf8(out, name):
    """card.h: "A surrogate without its partner is told as U+FFFD"."""
    return stored(out, b"".join(utf8(point) for point in characters(units_of(name))))


def need_character(text, at):
    """card.h: 39 of what is no character of UTF-8, or of a zero."""
    why = fault(text, at) or ("zero" if text[at] == 0 else "")
    if why:
        raise Refused(39, why, (at, (0,) * NAME))


@call(zero=(0, (0,) * NAME), lent=(0,))
def gpt_name_from_utf8(text):
    """card.h: 39, and 40 of the character that does not fit. "The text is read from its start: what comes first is said", and of one place the
    numbers in the order of their list, as in every call."""
    units, at = (), 0
    while at < len(text):
        need_character(text, at)
        point, size = character(text, at)
        added = utf16(point)
        if len(units) + len(added) > NAME:
            raise Refused(40, "half of a pair" if len(units) < NAME else "pair" if len(added) > 1 else "unit", (at, (0,) * NAME))
        units += added
        at += size
    return 0, units + (0,) * (NAME - len(units))
