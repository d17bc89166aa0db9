"""Cases with known answers of the version and of the words of a number: what card.h, README.md and the Makefile say, read from their text."""

import itertools
import pathlib
import re

from fixed_texts import stores

TOP = pathlib.Path(__file__).resolve().parents[2]
CARD_H = (TOP / "include" / "card.h").read_text()
README = (TOP / "README.md").read_text()
MAKEFILE = (TOP / "Makefile").read_text()
SLOTS = (1, 9, 10, 99, 128, 999, 4294967295)
PLACES = (0, 1, 2, 3, 4, 5, 6, 257, 2**32 - 1)
# Numbers that are in neither table; 278 and 65,553 are 22 and 17 if a call drops their high bits.
NONE = (41, 42, 43, 44, 45, 100, 255, 256, 278, 65553, 2**31, 2**32 - 1)
# The words that card.h, README.md and hosts/python quote, and the other places of the card check, each with its number, place and slot.
QUOTED = (
    ((0, 0, 0), "accepted"),
    ((22, 0, 1), "refused 22, Overlap: a block that another slot has (slot 1)"),
    ((6, 2, 0), "refused 6, PartsCrc: the back table's entry check sum does not match"),
    ((6, 1, 0), "refused 6, PartsCrc: the front table's entry check sum does not match"),
    ((28, 0, 0), "refused 28, ReservedFlag: a flag that UEFI keeps reserved"),
    ((4, 2, 0), "refused 4, InvalidGptSignature: the back table's header does not begin with EFI PART"),
    ((4, 1, 0), "refused 4, InvalidGptSignature: the front table's header does not begin with EFI PART"),
    ((5, 1, 0), "refused 5, InvalidCRC32Checksum: the front table's header check sum does not match"),
    ((5, 2, 0), "refused 5, InvalidCRC32Checksum: the back table's header check sum does not match"),
    ((16, 1, 0), "refused 16, WrongLayout: the front table is not laid out as a card's"),
    ((16, 2, 0), "refused 16, WrongLayout: the back table is not laid out as a card's"),
    ((17, 3, 0), "refused 17, Disagree: the two tables have different disk GUIDs"),
    ((17, 4, 128), "refused 17, Disagree: the two tables differ, first in slot 128"),
    ((23, 0, 2), "refused 23, EmptySlot: the slot is not used (slot 2)"),
    ((26, 0, 0), "refused 26, WrongStage: the state does not lead to this stage on an image of this length and block size"),
    ((41, 0, 0), "the library has no such number"),
)


def constant(name):
    """A number that card.h defines."""
    return int(re.search(rf"#define {name} (\d+)", CARD_H)[1])


def tabled():
    """The numbers of card.h's two tables with the names in C and the meanings, up to what they say of the answer's fields."""
    rows = re.findall(r"^    CARD_([A-Z0-9_]+) = (\d+),? +/\* (.*?) \*/$", CARD_H, re.MULTILINE)
    return {int(number): (name, meaning.split(";")[0]) for name, number, meaning in rows if not name.startswith("PLACE")}


def told(calls, *args):
    """The words of a number as text; a refusal is told by its number."""
    number, (length,), (out,) = calls["card_message"](bytes(constant("CARD_MESSAGE_SIZE")), *args)[:3]
    return out[:length].decode("ascii") if number == 0 and not any(out[length:]) else number


def version_cases(calls):
    """The version that the header and the Makefile name."""
    for version in (re.search(r'#define CARD_VERSION "(.*)"', CARD_H)[1], re.search(r"^VERSION = (.*)$", MAKEFILE, re.MULTILINE)[1]):
        yield f"version {version}", calls["card_version"](), (0, tuple(map(int, version.split("."))), (), (0, 0))


def table_cases(calls):
    """Each number by itself: the name is README.md's, or else the one in C without its lines, and the meaning card.h's."""
    names = {int(number): name for number, name in re.findall(r"^\| (\d+) \| ([A-Za-z0-9]+) \|", README, re.MULTILINE)}
    table = tabled()
    yield "the numbers of the tables", sorted(table), list(range(41))
    for number, (name, meaning) in table.items():
        words = told(calls, number, 0, 0)
        if number:
            said = re.fullmatch(r"refused (\d+), ([A-Za-z0-9]+): (.*)", str(words))
            yield f"the words of {number}", said and (int(said[1]), said[3]), (number, meaning)
            yield f"the name of {number}", said and said[2], names.get(number, name.title().replace("_", ""))
            yield f"the name of {number} in C", said and said[2].upper(), name.replace("_", "")


def quoted_cases(calls):
    """The quoted words, into lent bytes of every length around theirs."""
    for args, words in QUOTED:
        yield from stores(calls, "card_message", words.encode("ascii"), *args)


def place_cases(calls):
    """A place that a number does not have is left out of its words; and accepted, and numbers that are none, whatever is beside them."""
    for place, slot in itertools.product(PLACES, (0, *SLOTS)):
        yield f"0 with {place} and {slot}", told(calls, 0, place, slot), "accepted"
        for number in NONE:
            yield f"{number} with {place} and {slot}", told(calls, number, place, slot), "the library has no such number"
    for number, place in itertools.product(range(1, 41), PLACES):
        named = number in (4, 5, 6, 16) and place in (1, 2) or number == 17 and place in (3, 4)
        if not named:
            yield f"{number} at no place {place}", told(calls, number, place, 0), told(calls, number, 0, 0)


def slot_cases(calls):
    """A slot that is not 0 is said of every refusal, but beside a table or the disk GUIDs; the slot of 17 is the one that differs."""
    for number, slot in itertools.product(range(1, 41), SLOTS):
        plain = told(calls, number, 0, 0)
        yield f"{number} with slot {slot}", told(calls, number, 0, slot), f"{plain} (slot {slot})"
    for slot in SLOTS:
        yield f"17 of slot {slot}", told(calls, 17, 4, slot), f"refused 17, Disagree: the two tables differ, first in slot {slot}"
        yield f"17 of the disk GUID beside slot {slot}", told(calls, 17, 3, slot), told(calls, 17, 3, 0)
        for number, place in itertools.product((4, 5, 6, 16), (1, 2)):
            yield f"{number} at {place} beside slot {slot}", told(calls, number, place, slot), told(calls, number, place, 0)


def size_cases(calls):
    """The sizes that are always enough: some text of a name and each of a GUID needs all of them, and no words of a number need more."""
    out = bytes(constant("GPT_GUID_TEXT_SIZE"))
    guid = calls["gpt_guid_from_text"](b"ebd0a0a2-b9e5-4433-87c0-68b6b72699c7")[1][1]
    yield "GPT_GUID_TEXT_SIZE", (calls["gpt_guid_to_text"](out, guid)[0], calls["gpt_guid_to_text"](out[1:], guid)[0]), (0, 2)
    out = bytes(constant("GPT_NAME_TEXT_SIZE"))
    name = b"\xff" * 72
    yield "GPT_NAME_TEXT_SIZE", (calls["gpt_name_to_utf8"](out, name)[0], calls["gpt_name_to_utf8"](out[1:], name)[0]), (0, 2)
    for number, place in itertools.product((*range(46), *NONE), PLACES):
        yield f"CARD_MESSAGE_SIZE for {number} at {place}", isinstance(told(calls, number, place, 2**32 - 1), str), True


GROUPS = (version_cases, table_cases, quoted_cases, place_cases, slot_cases, size_cases)
