"""Head and tail, without the middle (document 02, 10/13): the card calls on two lent windows and a stated block count.

A call on windows is the model's own call on "a whole image of that many blocks". A small card is put together, with a middle of any bytes; of a
larger one there are only the windows, and a call that asks for a byte of the middle ends the run.
"""

import contextlib
import inspect

import card
import ground
import maps
import payload
import reader
import stages
from units import Refused, call, fits, need_block_size

FEW = 300
TILE = b"a tile of a map, which no table call may touch; "


class Imagined:
    """A whole image of which the head and the tail are there. It is read and written by slices, as bytes are."""

    def __init__(self, head, tail, length):
        self.head, self.tail, self.length = head, tail, length

    def window(self, place):
        """The window that holds a slice of the image, and the slice of the window."""
        start, behind = place.start or 0, self.length - len(self.tail)
        if place.stop <= len(self.head):
            return self.head, slice(start, place.stop)
        if behind <= start and place.stop <= self.length:
            return self.tail, slice(start - behind, place.stop - behind)
        raise RuntimeError(f"bytes {start} to {place.stop} are not in the windows")

    def __getitem__(self, place):
        held, part = self.window(place)
        return held[part]

    def __setitem__(self, place, data):
        held, part = self.window(place)
        held[part] = data


@contextlib.contextmanager
def whole(head, tail, blocks, b):
    """Document 02, 10/13: the whole image, for a call to work on; then "the windows end as those blocks would". The windows are as long as they
    are due."""
    if blocks > FEW:
        yield Imagined(head, tail, blocks * b)
        return
    size = blocks * b - len(head) - len(tail)
    middle = (TILE * (size // len(TILE) + 1))[:size]
    img = bytearray(head + middle + tail)
    yield img
    if img[len(head) : len(head) + size] != middle or len(img) != blocks * b:
        raise RuntimeError("a table call changed the middle")
    head[:], tail[:] = img[: len(head)], img[len(head) + size :]


def need_lengths(head, tail, b):
    """Document 02, 10/13: "32 WindowLength if either window isn't exactly that long"; the head is blocks 0 to A + 1, the tail the last A + 1."""
    for step, window, blocks in (("head", head, card.ARRAY // b + 2), ("tail", tail, card.ARRAY // b + 1)):
        if len(window) != blocks * b:
            raise Refused(32, step)


def need_card(head, tail, blocks, b):
    """Document 02, 10/13: "after 1 .., 3 if the block count times B passes 64 bits, then 8 and 10 by the stated count, then 32"."""
    need_block_size(b)
    card.shape(Imagined(head, tail, fits(blocks * b, "block count")), b)
    need_lengths(head, tail, b)


def windowed(image_call):
    """The call on windows that "answers as on a whole image of that many blocks"; "the rest as before"."""

    def body(head, tail, blocks, b, *rest):
        need_card(head, tail, blocks, b)
        with whole(head, tail, blocks, b) as img:
            return image_call.__wrapped__(img, b, *rest)

    names = ("head", "tail", "blocks", *list(inspect.signature(image_call).parameters)[1:])
    body.__signature__ = inspect.Signature([inspect.Parameter(name, inspect.Parameter.POSITIONAL_ONLY) for name in names])
    body.__doc__ = f"Document 02, 10/13: {image_call.__name__} on two windows."
    return call(zero=image_call.zero, lent=(0, 1, *(place + 2 for place in image_call.lent[1:])))(body)


card_window_lay = windowed(card.card_lay)
card_window_check = windowed(card.card_check)
card_window_put = windowed(card.card_put)
card_window_clear = windowed(card.card_clear)
card_window_count_used = windowed(card.card_count_used)
card_window_next_used = windowed(card.card_next_used)
card_window_read_slot = windowed(card.card_read_slot)
card_window_nth_used = windowed(card.card_nth_used)
card_window_list = windowed(card.card_list)
card_window_free_runs = windowed(ground.card_free_runs)
card_window_map_make = windowed(maps.card_map_make)
card_window_reader_copy = windowed(reader.card_reader_copy)
card_window_reader_count = windowed(reader.card_reader_count)
card_window_reader_next = windowed(reader.card_reader_next)
card_window_reader_slot = windowed(reader.card_reader_slot)
card_window_reader_list = windowed(reader.card_reader_list)
card_window_start_put = windowed(stages.card_start_put)
card_window_start_clear = windowed(stages.card_start_clear)
card_window_start_repair = windowed(stages.card_start_repair)
card_window_payload_place = windowed(payload.card_payload_place)


@call(zero=(0, stages.NO_UPDATE), lent=(0, 1))
def card_window_next_stage(head, tail, blocks, b, stage, state):
    """Document 02, 10/13: "in later stages after 26": 1, 26 by the count times B as a whole number, which no state names if it passes 64 bits or
    is too short for a card, so that 3, 8 and 10 never come; then 32."""
    need_block_size(b)
    stages.need_next(Imagined(head, tail, blocks * b), b, stage, state, stages.UPDATE_STAGES, state.slot)
    need_lengths(head, tail, b)
    with whole(head, tail, blocks, b) as img:
        return 0, stages.update_stage(img, stage, state)


@call(zero=(0, stages.NO_REPAIR), lent=(0, 1))
def card_window_next_repair(head, tail, blocks, b, stage, state):
    """Document 02, 10/13: the later stages of repair alike."""
    need_block_size(b)
    stages.need_next(Imagined(head, tail, blocks * b), b, stage, state, stages.repair_stages(b))
    need_lengths(head, tail, b)
    with whole(head, tail, blocks, b) as img:
        return 0, stages.repair_stage(img, stage, state)
