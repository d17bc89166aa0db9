"""Random updates and repairs that are cut (document 02, 6/13). Each call is compared, and what the promises say is judged a second time."""

import cases
import collide
import cuts
import damage
import ends
import images
import model
import states
from entries import record_bytes, record_from
from sums import crc32

SPOIL = ("signature", "own sum", "layout", "array", "entry", "twins")


class Broken(Exception):
    """The model, and with it the library, did not keep a promise of document 02."""


class Followed:
    """The calls, each of them compared as it is made. It knows the steps by which each image came about."""

    def __init__(self, rounds, steps, image):
        self.rounds = rounds
        self.steps = {image: list(steps)}

    def __getitem__(self, name):
        if name not in cases.ON_IMAGE:
            return lambda *args: self.rounds.judge([], None, name, args)
        return lambda image, *args: self.judge(name, image, args)

    def judge(self, name, image, args):
        """Compares a call; an image that it leaves has one step more."""
        steps = self.steps[image]
        answer = self.rounds.judge(steps, image, name, args)
        self.steps.setdefault(ends.left(name, image, args, answer[2]), steps + [("call", name, *args)])
        return answer

    def changed(self, image, hurt):
        """The image after some more steps."""
        now = images.made_from(image, hurt)
        self.steps.setdefault(now, self.steps[image] + hurt)
        return now


def hold(promises):
    """Ends the run if something is not as promised."""
    for name, got, due in promises:
        if got != due:
            raise Broken(f"{name}: {got!r:.300}, and {due!r:.300} is due")


def with_equal_sum(draw, image, b, slot):
    """A record on free ground for a slot whose GUID leaves the array's sum as it is; None if there is no ground or no card."""
    free = images.free_blocks(image, b)
    if not free or model.CALLS["card_check"](image, b)[0]:
        return None
    block = draw.pick(free)
    given = draw.record()._replace(first_lba=block, last_lba=block, reserved=0)
    array = cuts.array_of(image, b)
    return record_from(collide.entry_with_sum(array, slot, record_bytes(given), crc32(array)))


def drawn_update(draw, calls, image, b):
    """An image and an update of it: a put or a clear, mostly one that is accepted, at times of the slot's own record, at times with an
    equal sum; for a clear with an equal sum the image is one on which such a record was put."""
    slot = 1 + draw.below(128)
    kind = draw.below(10)
    used = images.used_entries(image, b)
    if kind < 3:
        record = with_equal_sum(draw, image, b, slot)
        if record and kind == 0:
            return calls["card_put"](image, b, slot, record)[2][0], "clear", (slot,)
        if record:
            return image, "put", (slot, record)
    if kind == 3 and used:
        slot = draw.pick(sorted(used))
        return image, "put", (slot, record_from(used[slot])._replace(reserved=0))
    if kind < 6:
        return image, "clear", (cases.slot(draw, image, b),)
    for _ in range(5):
        args = cases.put_call(draw, image, b)[1:]
        if model.CALLS["card_put"](image, b, *args)[0] == 0:
            break
    return image, "put", args


def spoil_copy(draw, image, b, side, kinds=SPOIL):
    """Steps that spoil one copy by one of the reader's tests; the sums are right again where the test comes after them."""
    card = images.places(len(image), b)
    header, array = (card.front, card.front_array) if side == "front" else (card.back, card.back_array)
    seal = [("seal", b, side == "front", True)]
    kind = draw.pick(kinds)
    if kind == "signature":
        return [("flip", header + draw.below(8), draw.below(8))] + (seal if draw.chance(50) else [])
    if kind == "own sum":
        return [("flip", header + draw.pick((16, 17, 18, 19, 56, 71, 88, 91)), draw.below(8))]
    if kind == "layout":
        places = [place + draw.below(width) for place, width in images.FIELDS.values() if place not in (16, 56, 88)]
        return [("flip", header + draw.pick(places), draw.below(8))] + seal
    if kind == "array":
        return [("flip", array + draw.below(cuts.ARRAY), draw.below(8))]
    if kind == "entry" or len(images.used_guids(image, b)) < 2:
        slot = draw.pick([1, 128, 1 + draw.below(128), *images.used_blocks(image, b)])
        return damage.in_arrays(card, (side,), slot, 0, damage.odd_entry(draw, image, b, card)) + seal
    one, two = draw.random.sample(sorted(images.used_entries(image, b)), 2)
    return damage.in_arrays(card, (side,), two, 16, images.used_entries(image, b)[one][16:32]) + seal


def spoil(draw, image, b):
    """Steps that spoil the front, the back or both, each by a test of its own; none where there is no room for a card."""
    if images.places(len(image), b) is None:
        return []
    sides = draw.pick((("front",), ("back",), ("front", "back"), ("front", "back")))
    return [step for side in sides for step in spoil_copy(draw, image, b, side)]


def ask_cut_update(rounds, steps, image, b):
    """One update by its stages with its promises; at one of its cuts other stages, forged and old states and other calls, and at times
    a repair from there."""
    draw, calls = rounds.draw, Followed(rounds, steps, image)
    image, kind, args = drawn_update(draw, calls, image, b)
    run = cuts.update(calls, image, b, kind, *args)
    hold(cuts.update_promises(calls, run, draw.chance(10)))
    cut = draw.pick(run.cuts)
    for state in run.states:
        calls["card_next_stage"](cut, *states.handed_in(draw, b, state))
    rounds.ask(calls.steps[cut], cut, b, 4)
    if draw.chance(12):
        ask_cut_repair(rounds, calls.steps[cut], cut, b)


def ask_cut_repair(rounds, steps, image, b):
    """One repair by its stages with its promises; at one of its cuts forged and old states, and at times it is begun again there."""
    draw, calls = rounds.draw, Followed(rounds, steps, image)
    run = cuts.repair(calls, image, b)
    hold(cuts.repair_promises(calls, run))
    cut = draw.pick(run.cuts)
    for state in draw.random.sample(run.states, min(len(run.states), 3)):
        calls["card_next_repair"](cut, *states.handed_in(draw, b, state))
    rounds.ask(calls.steps[cut], cut, b, 2)
    if run.states and draw.chance(20):
        ends = cuts.repair(calls, cut, b).cuts[-1] == run.cuts[-1]
        hold([("a repair begun again", ends, True)])


def ask_spoilt(rounds, steps, image, b):
    """The reader's calls and at times a repair on an image with one or both copies spoilt."""
    draw, calls = rounds.draw, Followed(rounds, steps, image)
    hurt = calls.changed(image, spoil(draw, image, b))
    for name in ("card_reader_copy", "card_reader_slot", "card_reader_list", "card_start_repair"):
        calls[name](hurt, *cases.ON_IMAGE[name](draw, hurt, b))
    if draw.chance(4):
        ask_cut_repair(rounds, calls.steps[hurt], hurt, b)


def ask_pulled(rounds, steps, image, b):
    """Updates and repairs of one image with their cuts, and the reader on spoilt copies of it."""
    ask_cut_update(rounds, steps, image, b)
    for _ in range(2):
        ask_spoilt(rounds, steps, image, b)
