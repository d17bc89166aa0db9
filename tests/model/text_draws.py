"""Random texts for the text calls: near valid ones, and lent bytes near the length that is needed."""

import struct

import model
import words
from draws import EDGES
from utf import FORMS, LEFT_OUT, RANGES, utf8

GUID_TEXT = 36
# The bytes beside those that a GUID's text may have, and what other forms of it have.
ODD_BYTES = b"/:@G`g-{}( )\0\t\n+_xX,.\x7f\x80\xad\xc3\xff" + b"0123456789abcdefABCDEF"
# The first and the last character of each length, and those beside the surrogates and at the end.
POINTS = (1, 0x41, 0x7F, 0x80, 0xE9, 0x7FF, 0x800, 0x20AC, 0xD7FF, 0xE000, 0xFEFF, 0xFFFD, 0xFFFE, 0xFFFF, 0x10000, 0x1F600, 0xFFFFF, 0x100000, 0x10FFFF)
UNITS = (1, 0x41, 0x7F, 0x80, 0x7FF, 0x800, 0xD7FF, 0xD800, 0xDBFF, 0xDC00, 0xDFFF, 0xE000, 0xFFFD, 0xFFFF)
PAIRS = ((0xD800, 0xDC00), (0xD800, 0xDFFF), (0xDBFF, 0xDC00), (0xDBFF, 0xDFFF), (0xD83D, 0xDE00))
# Bytes at the edges of the ranges that the table of UTF-8 has.
EDGE_BYTES = (0, 1, 0x41, 0x7F, 0x80, 0x8F, 0x90, 0x9F, 0xA0, 0xBF, 0xC0, 0xC1, 0xC2, 0xDF, 0xE0, 0xED, 0xEF, 0xF0, 0xF4, 0xF5, 0xF8, 0xFC, 0xFE, 0xFF)
SLOTS = (0, 1, 2, 9, 10, 11, 99, 100, 128, 129, 255, 256, 999, 1000, 65535, 999999999, 1000000000, 2**31, 2**32 - 2, 2**32 - 1)
# A number that is one of the table, or a place that is one, if a call drops its high bits.
NUMBERS = (256 + 22, 65536 + 17, 2**31 + 4, 2**32 - 1, 2**32 - 22, 100, 999)
PLACES = (*range(7), 255, 256 + 1, 65536 + 3, 2**31 + 4, 2**32 - 1)


def room(draw, name, *args):
    """Lent bytes: exactly enough for the text that a call stores and its zero, one too few, a few around, none, or any number."""
    exact = model.CALLS[name](bytes(400), *args)[1][0] + 1
    lengths = (exact, exact, exact, exact - 1, exact - 1, exact - 2, exact + 1, exact + draw.below(60), draw.below(exact), 0, 1, draw.below(200))
    return draw.data(max(draw.pick(lengths), 0))


def message_call(draw, b):
    """A number, a place and a slot, mostly of a refusal that names one."""
    number = draw.pick((*range(46), *words.OF_TABLE, *words.OF_TABLE, 17, 17, 17, *words.OF_SLOT, *NUMBERS, draw.number(32)))
    place = draw.pick((0, 0, 1, 2, 3, 4, *PLACES, draw.number(32)))
    slot = draw.pick((0, 0, 0, 0, *SLOTS, 1 + draw.below(128), draw.number(32, EDGES)))
    return room(draw, "card_message", number, place, slot), number, place, slot


def guid_text_call(draw, b):
    """A GUID, and room for its text."""
    guid = draw.guid()
    return room(draw, "gpt_guid_to_text", guid), guid


def changed(draw, text, odd):
    """A text with one byte changed, dropped, put in, doubled or swapped with its neighbour; odd are the bytes to take at times."""
    at = draw.below(len(text) + 1)
    byte = bytes([draw.pick((draw.pick(odd), draw.below(256)))])
    kind = draw.below(6)
    if kind < 2:
        return text[:at] + byte + text[at + 1 :]
    if kind == 2:
        return text[:at] + text[at + 1 :]
    if kind == 3:
        return text[:at] + byte + text[at:]
    if kind == 4:
        return text[:at] + text[at : at + 1] + text[at:]
    return text[:at] + text[at : at + 2][::-1] + text[at + 2 :]


def guid_text(draw):
    """36 characters of a GUID, in lower case, in upper case or mixed."""
    digits = "".join(draw.pick("0123456789abcdef") for _ in range(32)) if draw.chance(90) else draw.pick("09afAF") * 32
    text = "-".join((digits[:8], digits[8:12], digits[12:16], digits[16:20], digits[20:]))
    kind = draw.below(4)
    return (text if kind == 0 else text.upper() if kind == 1 else "".join(draw.pick((one, one.upper())) for one in text)).encode("ascii")


def guid_of_text_call(draw, b):
    """A text of a GUID: right, with one byte changed, cut, lengthened, in another form, or any bytes."""
    text = guid_text(draw)
    kind = draw.below(12)
    if kind < 4:
        return (text,)
    if kind < 8:
        return (changed(draw, text, ODD_BYTES),)
    if kind == 8:
        return (text[: draw.below(GUID_TEXT)],)
    if kind == 9:
        longer = text + draw.pick((b"\0", b" ", b"\n", b"}", b"0", b"-", draw.data(1 + draw.below(40)), text))
        return (longer if draw.chance(60) else changed(draw, longer, ODD_BYTES),)
    if kind == 10:
        return (draw.pick((b"{" + text + b"}", b" " + text, text[1:] + b" ", b"urn:uuid:" + text, text.replace(b"-", b""), text.replace(b"-", b"_"), text[::-1])),)
    return (draw.data(draw.pick((0, 1, 35, 36, 37, draw.below(80)))),)


def unit_list(draw, how_many):
    """So many units or one more: pairs, edges and any, at times with surrogates alone."""
    units = []
    while len(units) < how_many:
        kind = draw.below(10)
        if kind < 3:
            units += draw.pick(PAIRS)
        elif kind < 5:
            units.append(draw.pick(UNITS))
        elif kind == 5:
            units.append(0xD800 + draw.below(0x800))
        else:
            units.append(1 + draw.pick((draw.below(127), draw.below(0xD7FF), draw.below(65535))))
    return units


def name_text_call(draw, b):
    """Units of a name, more and fewer than 36, at times with a zero inside or with a pair over the end of the 36; and room for their text."""
    units = unit_list(draw, draw.pick((0, 1, 2, 34, 35, 36, 36, 37, 38, 72, draw.below(40), draw.below(80))))
    if len(units) > 36 and draw.chance(50):
        units[35:37] = draw.pick(PAIRS)
    if units and draw.chance(40):
        units[draw.pick((draw.below(len(units)), len(units) - 1, min(35, len(units) - 1), min(36, len(units) - 1)))] = 0
    if units and draw.chance(10):
        units = [draw.pick((0x41, 0x7FF, 0x800, 0xFFFF, 0xD800, 0xDC00))] * len(units)
    name = struct.pack(f"<{len(units)}H", *units)
    return room(draw, "gpt_name_to_utf8", name), name


def long_form(point, size):
    """A number in the form of so many bytes, from two to six, whether or not UTF-8 has it in that form."""
    tail = [0x80 | point >> 6 * i & 0x3F for i in reversed(range(size - 1))]
    return bytes([0xFF << 8 - size & 0xFF | point >> 6 * (size - 1) & 0x7F >> size, *tail])


def left_out(draw, first):
    """A first byte with a tail byte that RFC 3629's table leaves out behind it, and the tail of that many bytes."""
    form = next(form for form in FORMS if form[0][0] == first)
    second = draw.pick([byte for byte in range(0x80, 0xC0) if not form[1][0] <= byte <= form[1][1]])
    return bytes([first, second, *(0x80 + draw.below(64) for _ in form[2:])])


def odd_form(draw):
    """What is no character of UTF-8: an overlong form, a surrogate or a pair of them, a number past the end, a form cut short or with a byte that is hardly none of
    its tail, or a byte alone."""
    last, size, _ = draw.pick(RANGES[:3])
    whole = utf8(draw.pick(POINTS[3:]))
    kind = draw.below(8)
    if kind == 0:
        return long_form(draw.pick((0, 1, last, draw.below(last + 1))), size + 1 + draw.below(6 - size))
    if kind == 1:
        return long_form(draw.pick((0xD800, 0xDBFF, 0xDC00, 0xDFFF, 0xD800 + draw.below(0x800))), 3)
    if kind == 2:
        return b"".join(long_form(unit, 3) for unit in draw.pick(PAIRS))
    if kind == 3:
        return long_form(draw.pick((0x110000, 0x13FFFF, 0x140000, 0x1FFFFF, 0x110000 + draw.below(0xF0000))), 4)
    if kind == 4:
        return whole[: draw.below(len(whole))]
    if kind == 5:
        at = 1 + draw.below(len(whole) - 1)
        return whole[:at] + draw.pick((b"\x7f", b"\xc0", b"\0")) + whole[at + 1 :]
    return bytes([draw.pick(EDGE_BYTES)]) if kind == 6 else b"\0"


def name_bytes(draw):
    """Valid UTF-8 with a number of units that is small, near 36 or any, in characters of one length or of all lengths."""
    due = draw.pick((0, 1, 33, 34, 35, 35, 36, 36, 36, 37, 38, draw.below(60)))
    kinds = draw.pick((POINTS, POINTS, POINTS[:3], POINTS[3:6], POINTS[6:14], POINTS[14:]))
    text, units = b"", 0
    while units < due:
        point = draw.pick(kinds) if draw.chance(80) else draw.pick((1 + draw.below(0xD7FF), 0xE000 + draw.below(0x2000), 0x10000 + draw.below(0x100000)))
        text += utf8(point)
        units += 2 if point > 0xFFFF else 1
    return text


def name_of_text_call(draw, b):
    """A text of a name: right, with one byte changed, cut, with what is no character at any place or behind the 36th unit, or any bytes."""
    text = name_bytes(draw)
    kind = draw.below(12)
    if kind < 4:
        return (text,)
    if kind < 7:
        return (changed(draw, text, EDGE_BYTES),)
    if kind == 7:
        return (text[: draw.below(len(text) + 1)],)
    if kind < 10:
        at = draw.pick((draw.below(len(text) + 1), len(text)))
        return (text[:at] + odd_form(draw) + text[at:],)
    if kind == 10:
        return (text + draw.pick((odd_form(draw), utf8(draw.pick(POINTS)))) + odd_form(draw),)
    return (bytes(draw.pick(EDGE_BYTES) for _ in range(draw.below(9))) if draw.chance(70) else draw.data(draw.below(130)),)


def left_out_texts(draw):
    """One text for each first byte behind which the table leaves something out, with other characters before and behind it."""
    for first in LEFT_OUT:
        yield utf8(draw.pick(POINTS)) * draw.below(4) + left_out(draw, first) + utf8(draw.pick(POINTS)) * draw.below(4)


CALLS = {
    "card_version": lambda draw, b: (),
    "card_message": message_call,
    "gpt_guid_to_text": guid_text_call,
    "gpt_guid_from_text": guid_of_text_call,
    "gpt_name_to_utf8": name_text_call,
    "gpt_name_from_utf8": name_of_text_call,
}
