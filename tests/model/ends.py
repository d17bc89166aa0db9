"""The two windows of an image (document 02, 10/13): cut from it, put back into it, and the image calls made over them.

A case of a window call holds the image as every case does, and in front of its other arguments a Cut, which says what is cut from the image and
which block count is stated. The image of a card that is larger than memory has the card's first and last blocks, and hardly a middle.
"""

import struct
from collections import namedtuple

import model
import stages

ARRAY = 16384
SIZES = (512, 4096)
LABEL = 13
WINDOW = "card_window_"
Cut = namedtuple("Cut", "b blocks head tail")


def window_lengths(b):
    """The lengths that are due: blocks 0 to A + 1, and the last A + 1 blocks."""
    return (ARRAY // b + 2) * b, (ARRAY // b + 1) * b


def cut_of(image, b, blocks=None):
    """The cut with windows as long as they are due, and the image's own block count or another."""
    return Cut(b, len(image) // b if blocks is None else blocks, *window_lengths(b))


def tail_place(image, b):
    """The byte place of the last A + 1 whole blocks of an image; never one inside the head."""
    return max((len(image) // b - 1 - ARRAY // b) * b, window_lengths(b)[0])


def windows(image, cut):
    """The head and the tail of an image, as long as the cut says; where the image ends, zeros follow."""
    start = tail_place(image, cut.b)
    return image[: cut.head].ljust(cut.head, b"\0"), image[start : start + cut.tail].ljust(cut.tail, b"\0")


def given(name, image, args):
    """The arguments of a call on an image: the image in front of the others, or for a window call its windows and the stated count."""
    if not name.startswith(WINDOW):
        return image, *args
    cut, *rest = args
    return *windows(image, cut), cut.blocks, *rest


def left(name, image, args, buffers):
    """The image after a call, with the lent buffers that the call left."""
    if not name.startswith(WINDOW):
        return buffers[0]
    now = bytearray(image)
    for place, window in zip((0, tail_place(image, args[0].b)), buffers):
        now[place : place + len(window)] = window[: max(len(now) - place, 0)]
    return bytes(now)


def window_name(name):
    """The name of the window call that stands beside an image call, if there is one."""
    other = WINDOW + name.removeprefix("card_")
    return other if other in model.CALLS else None


def label_at(image, b, slot):
    """The first 13 bytes of a slot's partition, by the front table's entry; zeros where the image ends, or if there is no such slot."""
    entry = 2 * b + 128 * (slot - 1)
    if not 1 <= slot <= 128 or len(image) < entry + 128:
        return bytes(LABEL)
    start = struct.unpack_from("<Q", image, entry + 32)[0] * b
    return image[start : start + LABEL].ljust(LABEL, b"\0")


def labels_of(name, image, b, rest):
    """Document 02, 13/13: the bytes that a window call on labels takes last, as the image has them; other calls take none."""
    if name == "card_window_read_label":
        return (label_at(image, b, rest[0]),)
    if name == "card_window_judge":
        return (b"".join(label_at(image, b, slot) for (slot,) in struct.iter_unpack("<I", rest[0])),)
    return ()


def moved(value, by):
    """A state with another length: an image has odd bytes after its last whole block, and windows have none. Other values stay."""
    if not isinstance(value, (stages.Update, stages.Repair)) or value.len + by < 0:
        return value
    return value._replace(len=value.len + by)


class OverWindows:
    """The image calls, each made as the window call beside it on the ends of the image. Its answer is put into the form of the image call's
    answer, so that what is known of the one can be asked of the other. A call that has no window form is made on the image.

    ask makes a call of a name on an image, with the arguments after the image; a window call's arguments begin with a Cut.
    """

    def __init__(self, ask, calls):
        self.ask = ask
        self.calls = calls

    def __getitem__(self, name):
        other = window_name(name)
        lent = len(model.CALLS[name].lent)
        return (lambda image, b, *rest: self.over(other, image, b, rest, lent)) if other else self.calls[name]

    def over(self, name, image, b, rest, lent):
        """One window call on an image, answered as the image call would, with as many lent buffers as that one has."""
        true = b if b in SIZES else SIZES[0]
        cut = cut_of(image, true)
        if len(image) < sum(cut[2:]):
            cut = cut._replace(head=len(image), tail=0)
        odd = len(image) % true
        args = (cut, b, *(moved(value, -odd) for value in rest), *labels_of(name, image, true, rest))
        number, values, buffers, where = self.ask(name, image, args)
        values = values if number else tuple(moved(value, odd) for value in values)
        return number, values, (left(name, image, args, buffers), *buffers[2:][: lent - 1]), where


def over_windows(calls):
    """The image calls of the model or of the library over windows."""
    return OverWindows(lambda name, image, args: calls[name](*given(name, image, args)), calls)
