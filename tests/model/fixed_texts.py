"""Cases with known answers of GUIDs and names as text: the examples of RFC 9562, RFC 3629 and RFC 2781, UEFI's GUIDs by their bytes on a disk, and Python's uuid and
codecs as one more opinion."""

import struct
import uuid

from units import NIL, Guid, guid_from

EMPTY = (0,) * 36
# The example of RFC 9562, section 4, its nil and max UUIDs, the DNS name space, and the test vectors of its appendix A with the fields that it names; UEFI's two types.
GUIDS = {
    "f81d4fae-7dec-11d0-a765-00a0c91e6bf6": (0xF81D4FAE, 0x7DEC, 0x11D0, "a76500a0c91e6bf6"),
    "00000000-0000-0000-0000-000000000000": (0, 0, 0, "0000000000000000"),
    "ffffffff-ffff-ffff-ffff-ffffffffffff": (0xFFFFFFFF, 0xFFFF, 0xFFFF, "ffffffffffffffff"),
    "6ba7b810-9dad-11d1-80b4-00c04fd430c8": (0x6BA7B810, 0x9DAD, 0x11D1, "80b400c04fd430c8"),
    "c232ab00-9414-11ec-b3c8-9f6bdeced846": (0xC232AB00, 0x9414, 0x11EC, "b3c89f6bdeced846"),
    "919108f7-52d1-4320-9bac-f847db4148a8": (0x919108F7, 0x52D1, 0x4320, "9bacf847db4148a8"),
    "017f22e2-79b0-7cc3-98c4-dc0c0c07398f": (0x017F22E2, 0x79B0, 0x7CC3, "98c4dc0c0c07398f"),
    "c12a7328-f81f-11d2-ba4b-00a0c93ec93b": (0xC12A7328, 0xF81F, 0x11D2, "ba4b00a0c93ec93b"),
    "ebd0a0a2-b9e5-4433-87c0-68b6b72699c7": (0xEBD0A0A2, 0xB9E5, 0x4433, "87c068b6b72699c7"),
}
ON_DISK = {
    "c12a7328-f81f-11d2-ba4b-00a0c93ec93b": "28732ac11ff8d211ba4b00a0c93ec93b",
    "ebd0a0a2-b9e5-4433-87c0-68b6b72699c7": "a2a0d0ebe5b9334487c068b6b72699c7",
}
# RFC 3629, section 7, with the byte order mark of its last example, and RFC 2781, section 5; then the first and the last character of each row of RFC 3629's table.
NAMES = {
    "41e289a2ce912e": (0x0041, 0x2262, 0x0391, 0x002E),
    "ed959ceab5adec96b4": (0xD55C, 0xAD6D, 0xC5B4),
    "e697a5e69cace8aa9e": (0x65E5, 0x672C, 0x8A9E),
    "efbbbff0a38eb4": (0xFEFF, 0xD84C, 0xDFB4),
    "f0928d853d5261": (0xD808, 0xDF45, 0x003D, 0x0052, 0x0061),
    "017f": (0x0001, 0x007F),
    "c280dfbf": (0x0080, 0x07FF),
    "e0a080e0bfbf": (0x0800, 0x0FFF),
    "e18080ecbfbf": (0x1000, 0xCFFF),
    "ed8080ed9fbf": (0xD000, 0xD7FF),
    "ee8080efbfbf": (0xE000, 0xFFFF),
    "f0908080f0bfbfbf": (0xD800, 0xDC00, 0xD8BF, 0xDFFF),
    "f1808080f3bfbfbf": (0xD8C0, 0xDC00, 0xDBBF, 0xDFFF),
    "f4808080f48fbfbf": (0xDBC0, 0xDC00, 0xDBFF, 0xDFFF),
    "": (),
}
# RFC 3629, sections 3, 4 and 10: tails alone, overlong forms of zero, of "/" and "." and of the last character of each length, surrogates and a pair of them, what is past
# U+10FFFF, forms of five and six bytes, bytes that never stand in UTF-8, and characters that are cut or have another byte in them.
NO_CHARACTERS = (
    *("80", "bf", "c080", "c0af", "c0ae", "c1bf", "e08080", "e080af", "e09fbf", "f0808080", "f08080af", "f08fbfbf", "f8808080af", "fc80808080af"),
    *("eda080", "edadbf", "edae80", "edb080", "edbfbf", "eda18cedbeb4", "f4908080", "f4bfbfbf", "f5808080", "f7bfbfbf", "f888808080", "fbbfbfbfbf"),
    *("fc8480808080", "fdbfbfbfbfbf", "fe", "ff", "c2", "e0", "e0a0", "ef", "efbf", "f0", "f090", "f09080", "f48fbf", "c241", "c2c2", "e28941", "e241a2", "f0a38e41", "c200"),
)
LONE = (0xD800, 0xDBFF, 0xDC00, 0xDFFF)


def stores(calls, name, text, *args):
    """That a call stores this text and a zero in lent bytes that have room for both, and nothing where they have not."""
    lent = tuple(arg for arg in args if isinstance(arg, bytes))
    for length in sorted({0, 1, len(text) - 1, len(text), len(text) + 1, len(text) + 2, len(text) + 200} - {-1}):
        out = bytes(0xE0 | i & 7 for i in range(length))
        fits = length > len(text)
        left = text + b"\0" + out[len(text) + 1 :] if fits else out
        yield f"{name} {args} into {length} bytes", calls[name](out, *args)[:3], (0 if fits else 2, (len(text) if fits else 0,), (left, *lent))


def guid_cases(calls):
    """The published GUIDs, to text and from text in either case."""
    for text, (low, mid, high, tail) in GUIDS.items():
        guid = Guid(low, mid, high, bytes.fromhex(tail))
        yield from stores(calls, "gpt_guid_to_text", text.encode(), guid)
        for given in (text, text.upper(), text.title(), text[:20].upper() + text[20:]):
            yield f"from {given}", calls["gpt_guid_from_text"](given.encode())[:3], (0, (0, guid), (given.encode(),))
        yield f"Python's opinion of {text}", guid_from(uuid.UUID(text).bytes_le), guid
    for text, raw in ON_DISK.items():
        yield f"{text} on a disk", calls["gpt_guid_from_text"](text.encode())[1], (0, guid_from(bytes.fromhex(raw)))


def wrong_guid_cases(calls):
    """One wrong byte at each place, every byte at some places, and texts that are too short, too long or in another form."""
    text = b"ebd0a0a2-b9e5-4433-87c0-68b6b72699c7"
    pairs = [(at, byte) for at in range(36) for byte in b"/:@G`g-f0 \0\xff"] + [(at, byte) for at in (0, 8, 23, 35) for byte in range(256)]
    for at, byte in pairs:
        good = byte == ord("-") if at in (8, 13, 18, 23) else chr(byte) in "0123456789abcdefABCDEF"
        given = text[:at] + bytes([byte]) + text[at + 1 :]
        got = calls["gpt_guid_from_text"](given)
        yield f"byte {byte} at {at}", (got[0], got[1][0], got[2]), (0 if good else 39, 0 if good else at, (given,))
        if not good:
            yield f"byte {byte} at {at}: no GUID", got[1][1], NIL
    for length in range(36):
        yield f"{length} bytes", calls["gpt_guid_from_text"](text[:length])[:2], (39, (length, NIL))
    for name, given, at in (
        ("a zero behind it", text + b"\0", 36),
        ("one digit more", text + b"0", 36),
        ("twice", text + text, 36),
        ("in braces", b"{" + text + b"}", 0),
        ("a blank before it", b" " + text, 0),
        ("a blank behind it", text + b" ", 36),
        ("as a URN", b"urn:uuid:" + text, 0),
        ("without dashes", text.replace(b"-", b""), 8),
        ("short, and wrong before its end", b"ebd0g", 4),
        ("long, and wrong before 36", text[:30] + b"g" * 20, 30),
    ):
        yield name, calls["gpt_guid_from_text"](given)[:3], (39, (at, NIL), (given,))


def units_bytes(units):
    """Units as a lent row."""
    return struct.pack(f"<{len(units)}H", *units)


def name_cases(calls):
    """The published names in both directions, and Python's codecs on them."""
    for digits, units in NAMES.items():
        text = bytes.fromhex(digits)
        yield f"from {digits}", calls["gpt_name_from_utf8"](text)[:3], (0, (0, units + EMPTY[len(units) :]), (text,))
        yield from stores(calls, "gpt_name_to_utf8", text, units_bytes(units))
        yield f"{digits}, a zero and more", calls["gpt_name_to_utf8"](bytes(109), units_bytes((*units, 0, 0x41)))[1], (len(text),)
        yield f"Python's opinion of {digits}", text.decode("utf-8").encode("utf-16-le"), units_bytes(units)


def no_name_cases(calls):
    """What is no character, at the start, behind others, before others and behind 36 units; a zero; and the character that does not fit."""
    for digits in NO_CHARACTERS:
        wrong = bytes.fromhex(digits)
        for before in (b"", b"ab", "é高😀".encode(), b"a" * 35, b"a" * 36):
            for text in (before + wrong, before + wrong + b"a" * 9):
                yield f"{before} {digits}", calls["gpt_name_from_utf8"](text)[:3], (39, (len(before), EMPTY), (text,))
    for name, text, number, at in (
        ("a zero", b"\0", 39, 0),
        ("a zero inside", b"ab\0c", 39, 2),
        ("a zero behind 36 units", b"a" * 36 + b"\0", 39, 36),
        ("37 units", b"a" * 37, 40, 36),
        ("37 units, then no UTF-8", b"a" * 37 + b"\xff", 40, 36),
        ("no UTF-8, then 37 units", b"\xff" + b"a" * 37, 39, 0),
        ("a pair behind 35 units", b"a" * 35 + "😀".encode(), 40, 35),
        ("a pair behind 36 units", b"a" * 36 + "😀".encode(), 40, 36),
        ("19 pairs", "😀".encode() * 19, 40, 72),
        ("37 units of three bytes", "高".encode() * 37, 40, 108),
        ("very long", b"a" * 4096, 40, 36),
    ):
        yield name, calls["gpt_name_from_utf8"](text)[:3], (number, (at, EMPTY), (text,))
    for one, count in (("a", 36), ("é", 36), ("高", 36), ("😀", 18)):
        units = struct.unpack("<36H", (one * count).encode("utf-16-le"))
        yield f"{count} times {one}", calls["gpt_name_from_utf8"]((one * count).encode())[:2], (0, (0, units))
    units = (0x61,) * 34 + (0xD83D, 0xDE00)
    yield "a pair behind 34 units", calls["gpt_name_from_utf8"](b"a" * 34 + "😀".encode())[:2], (0, (0, units))


def python_name(text):
    """What Python's codec says of a text: the number, the place and the units. A text here is shorter than 36 units."""
    try:
        good, wrong = text.decode("utf-8"), len(text)
    except UnicodeDecodeError as error:
        good, wrong = "", error.start
    zero = text.find(b"\0")
    if 0 <= zero < wrong or wrong < len(text):
        return 39, (zero if 0 <= zero < wrong else wrong, EMPTY)
    raw = good.encode("utf-16-le")
    return 0, (0, struct.unpack("<36H", raw.ljust(72, b"\0")))


def edge_cases(calls):
    """Every first byte of two or more before each byte at an edge of a range, the others before a tail byte, and what follows them, by Python's codec."""
    for first in range(256):
        for second in (0x00, 0x41, 0x7F, 0x80, 0x8F, 0x90, 0x9F, 0xA0, 0xBF, 0xC0) if first >= 0xC0 else (0x80,):
            for rest in (b"", b"\x80", b"\xbf\xbf") if first >= 0xC0 else (b"",):
                text = bytes([first, second]) + rest
                yield f"Python's opinion of {text.hex()}", calls["gpt_name_from_utf8"](text)[:2], python_name(text)


def surrogate_cases(calls):
    """Surrogates without a partner, pairs over the end of the 36 units, zeros, and rows of every length around 36, by Python's codec too."""
    rows = [(0x41,) * n + pair for n in (0, 1, 33, 34, 35, 36) for one in LONE for two in (*LONE, 0x41, 0xFFFF) for pair in ((one, two), (one,), (one, two, 0xDC00))]
    rows += [(unit,) * count for unit in (0x41, 0x7FF, 0x800, 0xFFFF, *LONE) for count in (1, 35, 36, 37, 72)]
    rows += [(0x41,) * at + (0,) + (0x42,) * 40 for at in (0, 1, 34, 35, 36)] + [(0xD83D, 0, 0xDE00), (0,), ()]
    for units in rows:
        shown = units[:36]
        shown = shown[: shown.index(0)] if 0 in shown else shown
        text = units_bytes(shown).decode("utf-16-le", "replace").encode("utf-8")
        yield from stores(calls, "gpt_name_to_utf8", text, units_bytes(units))
    for units, text in (
        ((0xD800,), "efbfbd"),
        ((0xDC00, 0xD800), "efbfbdefbfbd"),
        ((0xD800, 0xD83D, 0xDE00, 0xDE00), "efbfbdf09f9880efbfbd"),
        ((0x61,) * 35 + (0xD83D, 0xDE00), "61" * 35 + "efbfbd"),
        ((0x61,) * 34 + (0xD83D, 0xDE00), "61" * 34 + "f09f9880"),
        ((0xFFFF,) * 40, "efbfbf" * 36),
    ):
        yield from stores(calls, "gpt_name_to_utf8", bytes.fromhex(text), units_bytes(units))


GROUPS = (guid_cases, wrong_guid_cases, name_cases, no_name_cases, edge_cases, surrogate_cases)
