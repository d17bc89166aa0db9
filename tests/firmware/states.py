#!/usr/bin/env python3
"""Makes the cards: states.py WORK. Writes WORK/cards/ID.img and WORK/states.json.

A state is a card with two tables to compare with: `old`, the one before a change, and `new`, the one after it; of an unchanged card they are equal. Both are what
card.listing says of the whole card. The cards between are those that the staged calls and the repair leave after a stage. No call has the other order, the front
first: its cards are mixed by whole blocks from the card before and the card after.
"""
import json
import os
import pathlib
import re
import sys
import uuid

ROOT = pathlib.Path(__file__).resolve().parents[2]
sys.path[1:1] = [str(ROOT / "hosts" / "python"), str(ROOT / "tests" / "cuts")]
import card  # noqa: E402
import staged  # noqa: E402

LIBRARY = os.environ.get("CARD_LIBRARY") or str(ROOT / "target" / "lib" / "libcard.so")
# The states of QUICK=1.
QUICK = r"least 1 slots|1M 3 slots|put cut \d|put cut 3 repair, other header zeroed|(front|back) header zeroed|front array byte flipped|MBR zeroed"
DISK = uuid.UUID("5a3f1c20-11e7-4b6d-9c04-0242ac110000")
MIB = 1 << 20
ARRAY = 16384


def table(image, size):
    """The table of a whole card, as card.listing says."""
    rows = [(entry.slot, entry.record) for entry in card.listing(image, size)]
    return [dict(slot=slot, first=r.first, last=r.last, guid=str(r.guid), type=str(r.type), name=r.name) for slot, r in rows]


def checked(image, size):
    """The number of the card check."""
    try:
        card.check(image, size)
        return 0
    except card.Refused as refused:
        return refused.number


def usable(length, size):
    """The first and the last usable block."""
    return 2 + ARRAY // size, length // size - ARRAY // size - 2


def record(number, first, last, name):
    """A record whose GUID has this number."""
    return card.Record(card.BASIC_DATA, uuid.UUID(int=0x5A3F1C2011E74B6D9C04024200000000 + number), first, last, name=name)


def laid(length, size, used):
    """A card with slots 1 to used, spread evenly over the usable blocks, the last one up to the last block."""
    image = bytearray(length)
    card.lay(image, size, DISK)
    first, last = usable(length, size)
    share = (last - first + 1) // used if used else 0
    for slot in range(1, used + 1):
        start = first + (slot - 1) * share
        card.put(image, size, slot, record(slot, start, last if slot == used else start + share - 1, f"map {slot}"))
    return image


class Base:
    """A card of 2 MiB with slots 1, 2 and 3 and free ground between and after them."""

    def __init__(self, size):
        self.size, self.blocks, self.image = size, 2 * MIB // size, bytearray(2 * MIB)
        self.first, last = usable(2 * MIB, size)
        self.step = (last - self.first + 1) // 6
        card.lay(self.image, size, DISK)
        for slot in (1, 2, 3):
            card.put(self.image, size, slot, self.record(slot, 2 * slot - 2, 2 * slot - 1, f"map {slot}"))

    def record(self, number, start, end, name, more=0):
        """A record from one sixth of the usable blocks up to another, and some blocks more."""
        return record(number, self.first + start * self.step, self.first + end * self.step - 1 + more, name)

    def changed(self, what):
        """The slot of a change, and the card after the plain call."""
        after, slot = bytearray(self.image), 60 if what == "put" else 2
        if what == "clear":
            card.clear(after, self.size, slot)
        else:
            card.put(after, self.size, slot, self.record(60, 1, 2, "sheet 60") if what == "put" else self.record(200, 2, 3, "map 2 again", 2))
        return slot, after

    def damaged(self, *spans, flip=()):
        """The card with zeros in some places and a bit turned over in others."""
        image = bytearray(self.image)
        for start, end in spans:
            image[start:end] = bytes(end - start)
        for place in flip:
            image[place] ^= 1
        return image

    def mixed(self, image, after, block):
        """An image with one block of the card after a change."""
        place = slice(block * self.size, (block + 1) * self.size)
        image[place] = after[place]
        return bytearray(image)


def accepted(answer):
    """The state that a stage hands back; it must be accepted."""
    number, state = answer
    if number:
        raise SystemExit(f"a stage was refused by {number}")
    return state


def staged_cuts(calls, image, size, slot, after):
    """The card before an update and after each of its four stages. The last one is what the plain call left."""
    cuts, place = [bytearray(image)], 2 * size + 128 * (slot - 1)
    now = bytearray(image)
    state = accepted(calls.start(now, size, slot, bytes(after[place : place + 128])))
    cuts.append(bytearray(now))
    for stage in (2, 3, 4):
        state = accepted(calls.next_stage(now, size, stage, state))
        cuts.append(bytearray(now))
    if now != after:
        raise SystemExit("after the fourth stage the card is not what the plain call left")
    return cuts


def repair_cuts(calls, image, size, good):
    """The card after the first and the last but one stage of a repair. After the last one it is this good card."""
    now, last = bytearray(image), 2 + ARRAY // size
    state = accepted(calls.start_repair(now, size))
    zeroed = bytearray(now)
    for stage in range(2, last + 1):
        array = bytearray(now)
        state = accepted(calls.next_repair(now, size, stage, state))
    if now != good:
        raise SystemExit("a finished repair did not leave the whole card")
    return zeroed, array


def wanted(state):
    """Whether a state is asked for."""
    return not os.environ.get("QUICK") or re.fullmatch(QUICK, state)


def whole_cards(size):
    """The whole cards: the least one, some sizes and numbers of slots, and one with bytes after its last whole block."""
    lengths = {"least": (2 * (ARRAY // size) + 4) * size, "1M": MIB, "8M": 8 * MIB, "64M": 64 * MIB, "1M+tail": MIB + (100 if size == 512 else 512)}
    numbers = {"least": (1,), "1M": (0, 1, 3, 128), "8M": (3,), "64M": (1, 3, 128), "1M+tail": (3,)}
    for label, length in lengths.items():
        for used in numbers[label]:
            if wanted(f"{label} {used} slots"):
                yield f"{label} {used} slots", laid(length, size, used)


def cut_cards(calls, base, what):
    """The cards of one change: cut after each stage, a repair of each that needs one, and of the put the front-first order too."""
    size, per = base.size, ARRAY // base.size
    slot, after = base.changed(what)
    cuts = staged_cuts(calls, base.image, size, slot, after)
    for stage, cut in enumerate(cuts):
        yield "cut", f"{what} cut {stage}", cut, after
    if what == "put":
        block, image = 128 * (slot - 1) // size, bytearray(base.image)
        for count, stored in enumerate((2 + block, 1, base.blocks - 1 - per + block), 1):
            image = base.mixed(image, after, stored)
            yield "order", f"front first, put cut {count}", image, after
    for stage, good in ((1, base.image), (2, base.image), (3, after)):
        zeroed, array = repair_cuts(calls, cuts[stage], size, good)
        yield "repair", f"{what} cut {stage} repair, other header zeroed", zeroed, after
        yield "repair", f"{what} cut {stage} repair, array stored", array, after


def damaged_cards(base):
    """Damage to a card that no stage does."""
    size, blocks, per = base.size, base.blocks, ARRAY // base.size
    mbr, head, tail = (0, 512), (size, 2 * size), ((blocks - 1) * size, blocks * size)
    front, back = 2 * size + 128 + 40, (blocks - 1 - per) * size + 128 + 40
    yield "front header zeroed", base.damaged(head)
    yield "front header byte flipped (last usable)", base.damaged(flip=[size + 48])
    yield "front array byte flipped", base.damaged(flip=[front])
    yield "back header zeroed", base.damaged(tail)
    yield "back array byte flipped", base.damaged(flip=[back])
    yield "MBR zeroed", base.damaged(mbr)
    yield "MBR zeroed, front header zeroed", base.damaged(mbr, head)
    yield "both headers zeroed", base.damaged(head, tail)
    yield "both arrays flipped", base.damaged(flip=[front, back])


def all_cards(calls):
    """Each card: its group, its name, its block size, the image, and the tables before and after."""
    for size in (512, 4096):
        for state, image in whole_cards(size):
            yield "good", state, size, image, table(image, size), table(image, size)
        base = Base(size)
        old = table(base.image, size)
        for what in ("put", "replace", "clear"):
            for group, state, image, after in cut_cards(calls, base, what):
                yield group, state, size, image, old, table(after, size)
        for state, image in damaged_cards(base):
            yield "damage", state, size, image, old, old


def write(path, image):
    """Writes a file in which zeros are holes."""
    with open(path, "wb") as file:
        for place in range(0, len(image), 4096):
            if any(image[place : place + 4096]):
                file.seek(place)
                file.write(image[place : place + 4096])
        file.truncate(len(image))


def main(work, calls=None):
    """Makes all cards, or with QUICK=1 some of them."""
    states, folder = [], os.path.join(work, "cards")
    os.makedirs(folder, exist_ok=True)
    for group, state, size, image, old, new in all_cards(calls or staged.Library(LIBRARY)):
        if not wanted(state):
            continue
        name = f"s{len(states):03d}"
        write(os.path.join(folder, name + ".img"), image)
        states.append(dict(id=name, group=group, state=state, b=size, length=len(image), old=old, new=new, check=checked(image, size)))
    with open(os.path.join(work, "states.json"), "w") as file:
        json.dump(states, file, indent=1)
    print(f"{len(states)} cards in {folder}")


if __name__ == "__main__":
    main(*sys.argv[1:])
