"""Where a slot's payload stands in the card, and reading it: for programs that keep a card in a file and move its bytes in parts."""

import card
from units import call


@call(zero=(0,), lent=(0,))
def card_payload_place(img, b, slot, place, n):
    """Document 01, Payload write: the check, 18, 23, 24; where a payload write would store n bytes, counted from the card's first byte."""
    return (card.payload_start(img, b, slot, place, n),)


@call(zero=(0,), lent=(0, 4))
def card_read_payload(img, b, slot, place, out):
    """The same numbers; the bytes that stand there fill the lent ones, and their count is the answer. The image stays."""
    start = card.payload_start(img, b, slot, place, len(out))
    out[:] = img[start : start + len(out)]
    return (len(out),)
