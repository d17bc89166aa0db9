"""Cases with known answers of document 02, 6/13: repair, its stages and its cuts."""

import collide
import cuts
from entries import record_bytes
from fixed_reader import slots, two_tables
from fixed_update import KINDS, named, prepared
from known import own_guid
from known_copies import SIZES, at, card, damages, harmless, spliced, with_entry, with_header
from sums import crc32
from units import NOWHERE


def stage_cases(calls):
    """Zeros, the array's blocks ascending, the header: 34 stages at 512 and 6 at 4,096, whichever copy is the good one."""
    for b, count in ((512, 34), (4096, 6)):
        image = two_tables(calls, b, odd=5)
        cards = {"both good": image, "front good": damages(b)["own sum"](image, 1), "back good": damages(b)["own sum"](image, 0)}
        for name, hurt in cards.items():
            run = cuts.repair(calls, hurt, b)
            yield f"{name}, {b}, stages", len(run.states), count
            yield f"{name}, {b}, the good copy", run.states[0].back, int(name == "back good")
            yield f"{name}, {b}, its GUID", run.states[-1].guid, own_guid(99 if name == "back good" else 0)
            yield from named(f"{name}, {b}", cuts.repair_promises(calls, run, b == 4096))
            yield f"{name}, {b}, one stage more", calls["card_next_repair"](run.cuts[-1], b, count + 1, run.states[-1])[0], 26


def spoilt_cases(calls):
    """Each damage of one copy is mended from the other, and of both it is 27."""
    for b in SIZES:
        image = card(calls, b, slots(b))
        for name, spoil in damages(b).items():
            for back in (0, 1):
                run = cuts.repair(calls, spoil(image, back), b)
                yield from named(f"{name}, back {back}, {b}", cuts.repair_promises(calls, run))
                yield f"{name}, back {back}, {b}, the image at the end", run.cuts[-1] == image, True
            run = cuts.repair(calls, spoil(spoil(image, 0), 1), b)
            yield f"{name}, both, {b}", run.first[0], 27
            yield from named(f"{name}, both, {b}", cuts.repair_promises(calls, run))


def good_cases(calls):
    """A good card: all stages run, and the back is gone first; a card whose copies differ harmlessly gets the front's back."""
    for b in SIZES:
        image = card(calls, b, slots(b), odd=b - 1)
        run = cuts.repair(calls, image, b)
        yield f"good card of {b}, stages", len(run.states), 2 + cuts.ARRAY // b
        yield f"good card of {b}, the check on the way", {calls["card_check"](cut, b)[0] for cut in run.cuts[1:-1]}, {4}
        yield f"good card of {b}, the back after stage one", cuts.header_of(run.cuts[1], b, 1), bytes(b)
        yield f"good card of {b}, at the end", run.cuts[-1] == image, True
        for name, change in harmless(b).items():
            for back in (0, 1):
                run = cuts.repair(calls, change(image, back), b)
                yield from named(f"{name}, back {back}, {b}", cuts.repair_promises(calls, run))


def update_cases(calls):
    """A cut update: repaired to the old table after one and two stages, to the new one after three."""
    for b in SIZES:
        for kind in KINDS:
            image, call, args = prepared(calls, b, 6, kind)
            run = cuts.update(calls, image, b, call, *args)
            for after, cut in enumerate(run.cuts):
                mended = cuts.repair(calls, cut, b)
                name = f"{kind}, cut after {after}, {b}"
                yield from named(name, cuts.repair_promises(calls, mended))
                yield f"{name}, the image at the end", mended.cuts[-1] == (image if after < 3 else run.plain[2][0]), True


def again_cases(calls):
    """A repair begun again after each cut ends as one that was not cut; so does one whose stages were handed in twice."""
    for b in SIZES:
        image = two_tables(calls, b)
        front, back = damages(b)["twins"](image, 0), damages(b)["array sum"](image, 1)
        for name, hurt in {"both good": image, "front spoilt": front, "back spoilt": back}.items():
            run = cuts.repair(calls, hurt, b)
            yield f"{name}, {b}, repaired once more", cuts.repair(calls, run.cuts[-1], b).cuts[-1] == run.cuts[-1], True
            for after, cut in enumerate(run.cuts):
                begun = cuts.repair(calls, cut, b)
                yield f"{name}, {b}, begun again after {after}", begun.cuts[-1] == run.cuts[-1], True
                good = run.states[0].back if after < len(run.states) else 0
                yield f"{name}, {b}, begun again after {after}, the good copy", begun.states[0].back, good
            for stage in range(2, len(run.states) + 1):
                got = calls["card_next_repair"](run.cuts[stage], b, stage, run.states[stage - 2])
                yield f"{name}, {b}, stage {stage} twice", got, (0, (0, run.states[stage - 1]), (run.cuts[stage],), NOWHERE)


def source_cases(calls):
    """Later stages take the array's blocks from the good copy as the image has it, and the header from stage one."""
    for b in SIZES:
        image = card(calls, b, slots(b))
        for back in (0, 1):
            run = cuts.repair(calls, damages(b)["zeros"](image, not back), b)
            changed = with_entry(run.cuts[1], b, back, 2, 100, b"changed", False)
            now = calls["card_next_repair"](changed, b, 2, run.states[0])[2][0]
            start = [cuts.copy_blocks(image, b, side)[1] * b for side in (back, not back)]
            yield f"a changed source, back {back}, {b}", now[start[1] :][:b], changed[start[0] :][:b]
            last = calls["card_next_repair"](changed, b, len(run.states), run.states[-2])[2][0]
            yield f"a changed source, back {back}, {b}, header", cuts.header_of(last, b, not back), cuts.header_of(image, b, not back)


def third_table(calls, b, blocks):
    """A card whose back is good and whose front is not, though its header has the sum that the front's array has when so many of its
    blocks are copied from the back; and that half-copied front, which is good by itself and shows neither table."""
    per_block = b // 128
    back = card(calls, b, {1: at(1, b, 0), blocks * per_block + 1: at(2, b, 1)})
    front = card(calls, b, {2: at(3, b, 2), blocks * per_block + 2: at(4, b, 3)})
    half = cuts.array_of(back, b)[: blocks * b] + cuts.array_of(front, b)[blocks * b :]
    image = spliced(front, back, b)
    image = with_header(image, b, 0, 88, crc32(half).to_bytes(4, "little"))
    return image, image[: 2 * b] + half + image[2 * b + cuts.ARRAY :], half


def half_cases(calls):
    """Why the zeros come first: without them the reader would show a third table once a block or more is copied."""
    for b, counts in ((512, (1, 2, 16, 31)), (4096, (1, 2, 3))):
        for blocks in counts:
            image, half, array = third_table(calls, b, blocks)
            name = f"half-copied after {blocks}, {b}"
            yield f"{name}, before", cuts.shown(calls, image, b)[:2], (0, 1)
            yield f"{name}, without the zeros", cuts.shown(calls, half, b), (0, 0, cuts.rows_of(array))
            yield f"{name}, a third table", cuts.rows_of(array) != cuts.shown(calls, image, b)[2], True
            run = cuts.repair(calls, image, b)
            yield f"{name}, the array on the way", cuts.array_of(run.cuts[1 + blocks], b), array
            yield from named(name, cuts.repair_promises(calls, run))


def equal_sum_cases(calls):
    """Two good copies with different arrays of one sum: the front wins, and each half-copied back stays unseen."""
    for b in SIZES:
        front = card(calls, b, slots(b))
        array = cuts.array_of(front, b)
        raw = collide.entry_with_sum(array, 9, record_bytes(at(9, b, 4)), crc32(array))
        image = with_entry(front, b, 1, 9, 0, raw)
        yield f"equal sums, {b}", image[-b:] == front[-b:] and cuts.array_of(image, b, 1) != array, True
        yield f"equal sums, {b}, the check", calls["card_check"](image, b)[0], 17
        for name, hurt in {"both good": image, "front spoilt": damages(b)["own sum"](image, 0)}.items():
            yield from named(f"equal sums, {name}, {b}", cuts.repair_promises(calls, cuts.repair(calls, hurt, b)))


GROUPS = (stage_cases, spoilt_cases, good_cases, update_cases, again_cases, source_cases, half_cases, equal_sum_cases)
