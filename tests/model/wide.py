"""Random calls over windows (document 02, 10/13): on the ends of whole images, where they must answer as the image calls do; and on cards that are
larger than memory, of which only the ends are there."""

import cases
import cuts
import damage
import ends
import images
import model
import pulled
import screens
import states
from units import ALL_64, NIL

ALIKE = [name for name in model.CALLS if ends.window_name(name)]


def counts(image, b):
    """Stated counts beside the image's own: at the edges of 8, 10 and 3, and such that the product is the image's again without its high bits."""
    blocks, room, end = len(image) // b, 2 * (16384 // b) + 4, 2**64 // b
    return [0, 1, 2, 3, room - 1, room, blocks - 1, blocks + 1, end - 1, end, end + blocks, 2**63, 2**32 + blocks, 2**64 - 1]


def lengths(draw, cut):
    """A cut with one window or both of another length: a byte or a block beside, none, the other's, or the other block size's."""
    head, tail = ends.window_lengths(4608 - cut.b)
    sides = draw.pick((("head",), ("tail",), ("head", "tail")))
    beside = {"head": (cut.tail, head), "tail": (cut.head, tail)}
    changes = {}
    for side in sides:
        due = getattr(cut, side)
        changes[side] = draw.pick((0, 1, due - 1, due - 1, due + 1, due + 1, due - cut.b, due + cut.b, *beside[side]))
    return cut._replace(**changes)


def drawn_cut(draw, image, b, blocks):
    """Mostly windows as they are due and this block count, at times another count, other lengths, or both."""
    cut = ends.cut_of(image, b, blocks)
    kind = draw.below(16)
    if kind in (0, 1):
        cut = cut._replace(blocks=max(draw.pick(counts(image, b)), 0))
    return lengths(draw, cut) if kind in (1, 2) else cut


def answer_of(name, image, cut, *rest):
    """The model's answer to a window call on an image."""
    return model.CALLS[ends.WINDOW + name](*ends.given(ends.WINDOW + name, image, (cut, *rest)))


def rows_after(name):
    """A block size and a lent row for a listing, whose count another call gives."""
    return lambda draw, image, b, cut: (draw.block_size(b), draw.rows(answer_of(name, image, cut, b)[1][0]))


def put_call(draw, image, b, cut):
    """The arguments of put; at times with blocks near the end of a large card, or with most of it."""
    size, slot, record = cases.put_call(draw, image, b)
    last = max(cut.blocks - 16384 // b - 2, 0)
    if draw.chance(70) or last > ALL_64 - 4:
        return size, slot, record
    ends_there = draw.pick((last, last, last, last + 1, last - draw.below(9)))
    first = draw.pick((ends_there, ends_there, ends_there - draw.below(9), last // 2, 2 + 16384 // b, draw.number(64, [last])))
    return size, slot, record._replace(first_lba=max(first, 0), last_lba=max(ends_there, 0))


def runs_call(draw, image, b, cut):
    """A block size and two lent rows for the free ground, near the count."""
    places = bytes(8 * 129)
    count = answer_of("free_runs", image, cut, b, places, places)[1][0]
    return draw.block_size(b), cases.number_row(draw, count), cases.number_row(draw, count)


def place_call(draw, image, b, cut):
    """A slot, a place and a number of bytes near a partition's end, which may be far away."""
    used = images.used_blocks(image, b)
    slot = cases.slot(draw, image, b) if draw.chance(25) or not used else draw.pick(list(used))
    first, last = used.get(slot, (0, 0))
    size = min(max(last - first + 1, 0) * b, ALL_64)
    place = draw.number(64, [0, size, size // 2])
    return draw.block_size(b), slot, place, draw.number(64, [0, max(size - place, 0), max(size - place, 0), 2**64 - place])


def stage_call(made):
    """A block size, a stage and a state of an update or a repair: mostly with the length that the count gives, without its high bits."""

    def drawn(draw, image, b, cut):
        state = made(draw, image, b)
        if draw.chance(90):
            state = state._replace(len=cut.blocks * b & ALL_64)
        return states.handed_in(draw, b, state)

    return drawn


def as_image_call(name):
    """The arguments that the image call of this name takes after the image."""
    return lambda draw, image, b, cut: cases.ON_IMAGE[name](draw, image, b)


OWN = {
    "card_window_put": put_call,
    "card_window_start_put": put_call,
    "card_window_list": rows_after("count_used"),
    "card_window_reader_list": rows_after("reader_count"),
    "card_window_free_runs": runs_call,
    "card_window_payload_place": place_call,
    "card_window_next_stage": stage_call(states.update),
    "card_window_next_repair": stage_call(states.repair),
    "card_window_read_label": screens.window_read_call,
    "card_window_judge": screens.window_judge_call,
}
# The arguments after the cut of every window call, block size first.
ON_WINDOWS = {ends.window_name(name): OWN.get(ends.window_name(name), as_image_call(name)) for name in ALIKE}


def arguments(draw, image, b, name, blocks=None):
    """The arguments of a window call on the ends of an image: a cut, with the image's own block count or that of a larger card, and the others. A
    later stage has other lengths more often, since 26 comes before 32."""
    cut = drawn_cut(draw, image, b, blocks)
    cut = lengths(draw, cut) if name.endswith(("_next_stage", "_next_repair")) and draw.chance(15) else cut
    return cut, *ON_WINDOWS[name](draw, image, b, cut)


def ask(rounds, steps, image, b, how_many, blocks=None):
    """Some window calls on the ends of an image; the image stays."""
    for _ in range(how_many):
        name = rounds.draw.pick(list(ON_WINDOWS))
        rounds.judge(steps, image, name, arguments(rounds.draw, image, b, name, blocks))


def ask_alike(rounds, steps, image, b, how_many, names=tuple(ALIKE)):
    """Image calls, and the window calls beside them on the image's head and tail: the answers are alike, and so are all bytes after them."""
    over = ends.OverWindows(lambda name, image, args: rounds.judge(steps, image, name, args), None)
    for _ in range(how_many):
        name = rounds.draw.pick(names)
        args = cases.ON_IMAGE[name](rounds.draw, image, b)
        one, two = rounds.judge(steps, image, name, args), over[name](image, *args)
        pulled.hold([(f"{name} {args!r:.300} on the image and over windows, {len(image)} bytes", one, two)])


def some_card(rounds, b):
    """A card with five slots of one or two blocks, each followed by a free one; the lowest slot has the nil GUID. Its steps and its image."""
    draw, first = rounds.draw, 2 + 16384 // b
    steps = [("start", (2 * first + 14) * b, 1 + draw.below(1 << 32))]
    image = rounds.change(steps, images.made(steps), "card_lay", (b, draw.guid()))
    slots = draw.random.sample(range(1, 129), 5)
    for place, slot in enumerate(slots):
        record = draw.record()._replace(part_type_guid=draw.any_guid(), part_guid=NIL if slot == min(slots) else draw.any_guid(), reserved=0)
        record = record._replace(first_lba=first + 3 * place, last_lba=first + 3 * place + draw.below(2))
        image = rounds.change(steps, image, "card_put", (b, slot, record))
    return steps, image


def ask_labels(rounds, steps, image, b):
    """Labels and screen sets on an image whose maps have labels, with one date mostly: by the image, by its windows, and by both alike."""
    if len(images.used_blocks(image, b)) < 2 or model.CALLS["card_check"](image, b)[0]:
        steps, image = some_card(rounds, b)
    hurt = screens.labelled(rounds.draw, image, b)
    image, steps = images.made_from(image, hurt), steps + hurt
    for name in ("card_read_label", "card_read_label", "card_write_label", "card_judge", "card_judge", "card_judge"):
        rounds.judge(steps, image, name, cases.ON_IMAGE[name](rounds.draw, image, b))
    for name in ("card_window_read_label", "card_window_read_label", "card_window_judge", "card_window_judge", "card_window_judge"):
        rounds.judge(steps, image, name, arguments(rounds.draw, image, b, name))
    ask_alike(rounds, steps, image, b, 3, ("card_judge", "card_judge", "card_read_label"))


def ask_cut(rounds, steps, image, b):
    """An update by its stages over windows, or at times a repair, with all that 6/13 promises of its cuts."""
    followed = pulled.Followed(rounds, steps, image)
    calls = ends.OverWindows(lambda name, image, args: followed.judge(name, image, args), followed)
    if rounds.draw.chance(15):
        hurt = followed.changed(image, pulled.spoil(rounds.draw, image, b))
        pulled.hold(cuts.repair_promises(calls, cuts.repair(calls, hurt, b)))
        return
    image, kind, args = pulled.drawn_update(rounds.draw, calls, image, b)
    pulled.hold(cuts.update_promises(calls, cuts.update(calls, image, b, kind, *args)))


def ask_whole(rounds, steps, image, b):
    """All of this on the ends of one image."""
    ask(rounds, steps, image, b, 6)
    ask_alike(rounds, steps, image, b, 3)
    ask_alike(rounds, steps, image, b, 3, ("card_put", "card_put", "card_start_put"))
    if rounds.draw.chance(25):
        ask_cut(rounds, steps, image, b)


def ask_stages(rounds, steps, image, cut):
    """A put and a clear of a large card by their stages: after the fourth the windows are the plain call's, and the reader lists the old
    table up to the second and the new one from the third on."""
    b, draw = cut.b, rounds.draw
    calls = pulled.Followed(rounds, steps, image)

    def asked(name, image, *args):
        answer = calls.judge(ends.WINDOW + name, image, (cut, b, *args))
        return answer, ends.left(ends.WINDOW + name, image, (cut,), answer[2])

    for kind, args in (("put", put_call(draw, image, b, cut)[1:]), ("clear", (1 + draw.below(128),))):
        (plain, after), (first, now) = asked(kind, image, *args), asked(f"start_{kind}", image, *args)
        pulled.hold([(f"stage one of a {kind}", (first[0], first[1][0], first[3]), (plain[0], plain[1][0], plain[3]))])
        lists, out, state = [asked("reader_list", image, bytes(128 * 136))[0][2][2]], bytes(128 * 136), first[1][1]
        for stage in (2, 3, 4) if first[0] == 0 else ():
            lists.append(asked("reader_list", now, out)[0][2][2])
            answer, now = asked("next_stage", now, stage, state)
            state = answer[1][1]
        if first[0] == 0:
            new = asked("reader_list", after, out)[0][2][2]
            pulled.hold([("the lists of the reader", lists, [lists[0]] * 3 + [new]), ("the card after the fourth stage", now == after, True)])
            image = after


def large(draw, b):
    """The block count of a card that is larger than memory: at the edges of 8 TiB, of the protective record's 32 bits, and of 64 bits."""
    near = [2**43 // b, 2**32, 2**33, 2**40, 2**63 // b]
    return draw.pick((2**64 // b - 1, 2**64 // b - 1 - draw.below(9), 2**43 // b, draw.pick(near) + draw.below(5) - 2, 10001 + draw.below(2**40)))


def ask_large(rounds, b):
    """A card that is larger than memory: laid, with puts and clears, asked, damaged and asked again, and updated by stages."""
    draw = rounds.draw
    first = 2 + 16384 // b
    steps = [("start", (2 * first + draw.below(8)) * b, 0 if draw.chance(40) else 1 + draw.below(1 << 32))]
    image, blocks = images.made(steps), large(draw, b)
    cut = ends.cut_of(image, b, blocks)
    image = rounds.change(steps, image, "card_window_lay", (cut, b, draw.guid()))
    for _ in range(draw.pick((0, 2, 4, 8))):
        name = draw.pick(("card_window_put",) * 4 + ("card_window_clear",))
        image = rounds.change(steps, image, name, (cut, *ON_WINDOWS[name](draw, image, b, cut)))
    ask(rounds, steps, image, b, 10, blocks)
    for _ in range(2):
        hurt = damage.damage(draw, image, b)
        ask(rounds, steps + hurt, images.made_from(image, hurt), b, 7, blocks)
    ask_stages(rounds, steps, image, cut)
