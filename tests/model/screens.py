"""Random labels and screen sets (document 02, 13/13): maps with one date mostly, labels with one thing odd, and lists of slots."""

import struct

import ends
import images
from draws import SLOTS
from labels import SIZE, Label, label_bytes

DATES = (Label(2024, 5, 17, 3, 0), Label(2024, 2, 31, 3, 0), Label(0, 1, 1, 0, 0), Label(65535, 12, 31, 65535, 0))
# Months and days that are none; 13, 32 and 0 are beside the last ones and the first ones.
NO_MONTHS = (0, 13, 14, 128, 255)
NO_DAYS = (0, 32, 33, 128, 255)
VERSIONS = (0, 2, 255, 256, 257, 65535)


def other_date(draw, held):
    """A label with one thing changed that the screen set compares; it is a good one by itself."""
    return draw.pick(
        (
            held._replace(style=held.style ^ 1 << draw.below(16)),
            held._replace(style=held.style ^ 1),
            held._replace(year=held.year ^ 1 << draw.below(16)),
            held._replace(month=held.month % 12 + 1),
            held._replace(day=held.day % 31 + 1),
        )
    )


def label(draw, common, odd=40):
    """A label with the common date and revision and any sheet; so many times of a hundred with one of them changed, or with a month or day that
    is none."""
    held = common._replace(sheet=draw.number(16))
    if not draw.chance(odd):
        return held
    no_date = draw.pick((held._replace(month=draw.pick(NO_MONTHS)), held._replace(day=draw.pick(NO_DAYS))))
    return draw.pick((other_date(draw, held), no_date))


def raw_label(draw, common, odd=20):
    """The bytes of a label; so many times of a hundred a label with another mark or version, or with other numbers, or any bytes."""
    raw = label_bytes(label(draw, common, odd // 2))
    if not draw.chance(odd):
        return raw
    place = draw.below(3)
    mark = raw[:place] + bytes([raw[place] ^ 1 << draw.below(8)]) + raw[place + 1 :]
    version = raw[:3] + struct.pack("<H", draw.pick(VERSIONS)) + raw[5:]
    return draw.pick((mark, version, version, label_bytes(label(draw, common, 100)), label_bytes(label(draw, common, 100)), draw.data(SIZE)))


def labelled(draw, image, b):
    """Steps that store a label at the start of each used slot's partition, as far as it is in the image: most of them with one date."""
    common, odd = draw.pick(DATES), draw.pick((0, 10, 30, 60))
    inside = [first for first, _ in images.used_blocks(image, b).values() if 0 < first < len(image) // b]
    return [("store", first * b, raw_label(draw, common, odd)) for first in inside]


def slot_list(draw, image, b):
    """A list of slots: used ones, repeated ones among them, at times with an unused one or a number that is no slot; at times empty."""
    used = sorted(images.used_blocks(image, b))
    if draw.chance(6):
        return []
    if not used or draw.chance(8):
        return [draw.pick(SLOTS + [1 + draw.below(128)]) for _ in range(1 + draw.below(3))]
    listed = [draw.pick(used) for _ in range(draw.pick((1, 1, 2, 2, 3, 5, 12)))]
    if draw.chance(30):
        listed += [draw.pick(listed) for _ in range(1 + draw.below(2))]
    if draw.chance(15):
        listed.insert(draw.below(len(listed) + 1), draw.pick(SLOTS + [1 + draw.below(128)] * 9))
    return listed


def packed(listed):
    """A lent list of 32-bit numbers."""
    return struct.pack(f"<{len(listed)}I", *listed)


def one_slot(draw, image, b):
    """A used slot mostly, else any number."""
    used = sorted(images.used_blocks(image, b))
    return draw.pick(used) if used and draw.chance(80) else draw.pick(SLOTS + [1 + draw.below(128)])


def read_call(draw, image, b):
    """A block size and a slot."""
    return draw.block_size(b), one_slot(draw, image, b)


def write_call(draw, image, b):
    """A block size, a slot and a label."""
    return draw.block_size(b), one_slot(draw, image, b), label(draw, draw.pick(DATES))


def judge_call(draw, image, b):
    """A block size and a list."""
    return draw.block_size(b), packed(slot_list(draw, image, b))


def window_read_call(draw, image, b, cut):
    """A block size, a slot and bytes: a label, at times with bytes after it, at times too short."""
    size, slot = read_call(draw, image, b)
    raw = ends.label_at(image, b, slot) if draw.chance(30) else raw_label(draw, draw.pick(DATES))
    return size, slot, draw.pick((raw, raw, raw, raw + draw.data(1 + draw.below(20)), raw[: draw.pick((0, 1, 12, 12))]))


def window_judge_call(draw, image, b, cut):
    """A block size, a list and 13 bytes for each of its places: a repeated slot has the same bytes mostly; at times they are a byte or a label too
    few or too many."""
    listed, common = slot_list(draw, image, b), draw.pick(DATES)
    own, again = draw.chance(30), draw.pick((0, 0, 50))
    held = {slot: ends.label_at(image, b, slot) if own else raw_label(draw, common) for slot in listed}
    raw = b"".join(raw_label(draw, common) if draw.chance(again) and slot in listed[:place] else held[slot] for place, slot in enumerate(listed))
    if draw.chance(12):
        raw = draw.pick((raw[:-1], raw[:-SIZE], raw + b"\0", raw + raw_label(draw, common), b""))
    return draw.block_size(b), packed(listed), raw
