"""Cases with known answers for the slot map (document 02, 11/13), and a map carried through many calls."""

import cases
import known
import maps
from draws import Draw
from known import B, GUID
from units import ALL_64, NOWHERE

ALL = maps.SlotMap(ALL_64, ALL_64)


def word_cases(calls):
    """The edges of the two words: slots 1, 64, 65 and 128 free alone, all used, none used."""
    for slot in (1, 64, 65, 128):
        left = maps.words(set(range(1, 129)) - {slot})
        yield f"slot {slot} is free alone", calls["card_map_lowest_free"](left)[:2], (0, (slot,))
        yield f"127 slots without {slot}", calls["card_map_used"](left)[1], (127,)
        yield f"slot {slot} alone", calls["card_map_used"](maps.words({slot}))[1], (1,)
    yield "no slot is free", calls["card_map_lowest_free"](ALL), (33, (0,), (), NOWHERE)
    yield "all are used", calls["card_map_used"](ALL)[1], (128,)
    yield "none is used", (calls["card_map_used"](maps.NONE)[1], calls["card_map_lowest_free"](maps.NONE)[:2]), ((0,), (0, (1,)))


def bit_cases(calls):
    """One slot in each half, a put over itself, a clear of an empty slot, refused calls, and a map that is another card's."""
    image = known.card(calls, {64: known.record(64, 34), 65: known.record(65, 35)})
    own = maps.SlotMap(1 << 63, 1)
    yield "slots 64 and 65", calls["card_map_make"](image, B), (0, (own,), (image,), NOWHERE)
    yield "put over itself", calls["card_map_put"](image, B, 65, known.record(65, 35), own), (0, (0, own), (image,), NOWHERE)
    yield "clear of an empty slot", calls["card_map_clear"](image, B, 1, own)[:2], (0, (0, own))
    yield "a refused put", calls["card_map_put"](image, B, 1, known.record(1, 35), own), (22, (65, own), (image,), NOWHERE)
    yield "a put of a twin", calls["card_map_put"](image, B, 1, known.record(64, 36), own), (25, (64, own), (image,), NOWHERE)
    yield "a refused clear", calls["card_map_clear"](image, B, 129, own), (18, (0, own), (image,), NOWHERE)
    flagged = known.record(1, 36)._replace(reserved=1)
    yield "a reserved flag", calls["card_map_put"](image, B, 1, flagged, own), (28, (0, own), (image,), NOWHERE)
    cut = image[:-B]
    yield "a card cut by a block", calls["card_map_clear"](cut, B, 64, own), (16, (0, own), (cut,), (1, 0))
    yield "no card", calls["card_map_put"](image[:B], B, 1, known.record(1, 36), own), (8, (0, own), (image[:B],), NOWHERE)
    yield "another card's map, put", calls["card_map_put"](image, B, 128, known.record(1, 36), maps.NONE)[1], (0, maps.SlotMap(0, 1 << 63))
    yield "another card's map, clear", calls["card_map_clear"](image, B, 64, ALL)[1], (0, maps.SlotMap(ALL_64 >> 1, ALL_64))


def carried_cases(calls):
    """A map carried through puts, clears and payload writes, refused ones among them, is the one that is made anew; and what
    it answers is what the listing's count and the lowest empty slot are."""
    for b in (512, 4096):
        draw = Draw(b)
        image = calls["card_lay"](bytes((2 * (16384 // b) + 150) * b), b, GUID)[2][0]
        handed = calls["card_map_make"](image, b)[1][0]
        for step in range(150):
            kind = draw.pick(("card_map_put", "card_map_put", "card_map_put", "card_map_clear", "card_write_payload"))
            if kind == "card_write_payload":
                image = calls[kind](image, *cases.payload(draw, image, b))[2][0]
            else:
                args = cases.put_call(draw, image, b) if kind == "card_map_put" else cases.size_and_slot(draw, image, b)
                _, values, lent, _ = calls[kind](image, *args, handed)
                handed, image = values[1], lent[0]
            yield f"{b}, step {step}, {kind}", (handed,), calls["card_map_make"](image, b)[1]
            yield f"{b}, step {step}, used", calls["card_map_used"](handed)[1], calls["card_count_used"](image, b)[1]
            empty = [slot for slot in range(1, 129) if not calls["card_read_slot"](image, b, slot)[1][0]] if step % 25 == 0 else None
            if empty:
                yield f"{b}, step {step}, lowest free", calls["card_map_lowest_free"](handed)[1], (empty[0],)


def map_cases(calls):
    """All of them."""
    yield from word_cases(calls)
    yield from bit_cases(calls)
    yield from carried_cases(calls)
