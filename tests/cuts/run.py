"""Cards in files that are pulled in the middle of an update or a repair, beside a table that this test keeps itself.

Every cut reads the file anew: the reader's copy, count and list, then a repair by stages to its end, then the check. Run by `make cuts`, and
by `make cuts-quick` with fewer of them. A cut that is not as due says so and makes the exit status 1.
"""

import argparse
import os
import pathlib
import random
import secrets
import sys
import tempfile
import zlib

ROOT = pathlib.Path(__file__).resolve().parents[2]
sys.path.append(str(ROOT / "tests" / "model"))

import staged  # noqa: E402
import table  # noqa: E402
from collide import entry_with_sum  # noqa: E402
from pulledcard import GOOD, UPDATE_STAGES, PulledCard, Wrong, hold  # noqa: E402
from table import ARRAY, BACK, EMPTY, FRONT, SLOTS, Table, array_of, entry, smallest  # noqa: E402

BUILT = ROOT / "target" / "lib" / "libcard.so"
MEMORY = "/dev/shm"
SIZES = (512, 4096)
KINDS = ("put", "put over", "clear")
EDGES = (1, 4, 5, 32, 33, 128)
TOLD = 20


def equal_entry(slots, slot, raw):
    """An entry like the given one with another GUID, so that the array's sum stays as it is when a slot gets it."""
    array = array_of(slots)
    return entry_with_sum(array, slot, raw, zlib.crc32(array))


class Cuts:
    """All cards, one after the other in one file, and the count of their cuts."""

    def __init__(self, calls, path, seed):
        self.calls, self.path, self.seed, self.limit = calls, path, seed, 0
        self.cuts = self.wrong = 0

    def card(self, shape, slots, number=0):
        """A card that the library laid over random bytes, with these slots."""
        draw = random.Random(f"{self.seed} {number} {shape}")
        guid = draw.randbytes(16)
        image = bytearray(draw.randbytes(shape.length()))
        hold("lay", self.calls.lay(image, shape.b, guid), 0)
        hold("a laid card", table.with_table(bytes(image), shape, Table(guid, {})) == image, True)
        laid = Table(guid, slots)
        return PulledCard(self.calls, self.path, shape, table.with_table(bytes(image), shape, laid), laid)

    def cut(self, card):
        """One cut."""
        self.cuts += 1
        card.judge()

    def mended(self, card):
        """A repair to its end, after which the plain check accepts."""
        card.repair(card.repair_stages())
        hold("the check after the repair", card.checked, GOOD)
        card.judge()

    def tried(self, name, work, *args):
        """Some work on a card; what is wrong is told and counted."""
        try:
            work(*args)
        except Wrong as wrong:
            self.wrong += 1
            if self.wrong <= TOLD:
                print(f"wrong: {name}: {wrong}", flush=True)

    def update_cuts(self, b, slot, kind):
        """One update, cut after each of its stages, with a repair after each cut."""
        shape = smallest(b, 8, slot % 3)
        first = shape.usable()[0]
        held = entry(300, first, first + 1, "held")
        slots = {other: entry(other, first + 4 + place, first + 4 + place, "beside") for place, other in enumerate((slot - 1, slot + 1)) if 1 <= other <= SLOTS}
        slots = {**slots, slot: held} if kind in ("put over", "clear") else slots
        new = EMPTY if kind.startswith("clear") else entry(301, first + 1, first + 2, "new", 1 << 60 | 5)
        if kind == "put with an equal sum":
            new = equal_entry(slots, slot, new)
        if kind == "clear with an equal sum":
            slots[slot] = equal_entry(slots, slot, held)
        for stages in range(UPDATE_STAGES + 1):
            card = self.card(shape, slots, slot)
            card.update(slot, new, stages)
            self.cut(card)
            self.mended(card)

    def every_slot(self, slots):
        """Each of these slots, put, replaced and cleared, in both block sizes."""
        for b in SIZES:
            for slot in slots:
                for kind in KINDS:
                    self.tried(f"{kind} of slot {slot}, {b}", self.update_cuts, b, slot, kind)

    def two_tables(self, b, spoilt, way, equal):
        """A card whose two copies differ in a slot, and in the disk GUID too unless their sums are equal. One of them may be spoilt: by a
        bit of its header, or by a partition GUID that two of its slots have."""
        shape = smallest(b, 6)
        first, last = shape.usable()
        card = self.card(shape, {3: entry(3, first, first, "front")})
        other = entry(4, last, last, "back")
        other = equal_entry(card.table.slots, 100, other) if equal else other
        tables = [card.table, Table(card.table.guid if equal else bytes(range(16)), {**card.table.slots, 100: other})]
        taken = tables[BACK if spoilt == FRONT else FRONT]
        checked = (17, 4, 100) if equal else (17, 3, 0)
        if spoilt is not None and way == "twins":
            tables[spoilt].slots[50] = entry(3, first + 1, first + 1, "twin")
            checked = (17, 4, 50) if equal else checked
        image = table.with_copy(table.with_copy(card.due, shape, FRONT, tables[FRONT]), shape, BACK, tables[BACK])
        if spoilt is not None and way == "bit":
            place = shape.header(spoilt) * b + 60
            image = image[:place] + bytes([image[place] ^ 1]) + image[place + 1 :]
            checked = (5, spoilt + 1, 0)
        return PulledCard(self.calls, self.path, shape, image, taken, BACK if spoilt == FRONT else FRONT, checked)

    def half_copied(self, b, blocks):
        """A card with a good back, whose front header has the sum of the front's array once so many blocks are copied from the back. That
        half-copied front would pass by itself and show a third table."""
        shape = smallest(b, 6)
        first, per = shape.usable()[0], b // table.ENTRY
        places = (1, blocks * per + 1)
        back = self.card(shape, {slot: entry(slot, first + i, first + i, "back") for i, slot in enumerate(places)})
        front = {slot + 1: entry(slot + 1, first + 3 + i, first + 3 + i, "front") for i, slot in enumerate(places)}
        half = array_of(back.table.slots)[: blocks * b] + array_of(front)[blocks * b :]
        image = table.stored(back.due, shape, shape.array(FRONT), array_of(front))
        image = table.stored(image, shape, shape.header(FRONT), table.header_block(shape, FRONT, back.table.guid, zlib.crc32(half)))
        return PulledCard(self.calls, self.path, shape, image, back.table, BACK, (6, 1, 0))

    def each_stage(self, made, *args):
        """A repair of a card, cut after each of its stages."""
        card = made(*args)
        self.cut(card)
        card.repair(card.repair_stages(), lambda: self.cut(card))

    def constructed(self, slots):
        """Equal sums in updates; copies that differ, with equal sums too; a front that is good when it is half copied."""
        for b in SIZES:
            for slot in slots:
                for kind in ("put with an equal sum", "clear with an equal sum"):
                    self.tried(f"{kind}, slot {slot}, {b}", self.update_cuts, b, slot, kind)
            for equal in (False, True):
                for spoilt, way in ((None, "not"), (FRONT, "bit"), (BACK, "bit"), (FRONT, "twins"), (BACK, "twins")):
                    name = f"two tables of {b}, {spoilt} spoilt by {way}, equal sums {equal}"
                    self.tried(name, self.each_stage, self.two_tables, b, spoilt, way, equal)
            for blocks in range(1, ARRAY // b, max(1, ARRAY // b // 4)):
                self.tried(f"half copied, {blocks} blocks of {b}", self.each_stage, self.half_copied, b, blocks)

    def drawn_update(self, draw, card):
        """A slot and its new bytes, which a good card accepts: a put on free ground, over what the slot has, or with an equal sum; the
        slot's own bytes again; a clear."""
        slots, slot = card.table.slots, draw.randint(1, SLOTS)
        kind = draw.choice(("put", "put", "over", "equal", "again", "clear", "clear"))
        if slots and kind in ("over", "again", "clear"):
            slot = draw.choice(sorted(slots))
        free = table.free_blocks(card.shape, table.changed_to(slots, slot, EMPTY))
        if kind == "again" and slot in slots:
            return slot, slots[slot]
        if kind == "clear" or not free:
            return slot, EMPTY
        first = last = draw.choice(free)
        while last + 1 in free and draw.random() < 0.5:
            last += 1
        name = "".join(draw.choice("abc map") for _ in range(draw.randint(0, 36)))
        raw = entry(draw.getrandbits(60) + 1000, first, last, name, draw.getrandbits(16) << 48 | draw.getrandbits(3))
        return slot, equal_entry(slots, slot, raw) if kind == "equal" else raw

    def drawn_card(self, draw, number):
        """A card of any size, with some slots used or all of them."""
        full = draw.random() < 0.04
        shape = smallest(draw.choice((512, 512, 4096)), SLOTS if full else draw.choice((1, 2, 7, 20, 40)), draw.choice((0, 0, 1, 511)))
        first, last = shape.usable()
        blocks = list(range(first, last + 1))
        draw.shuffle(blocks)
        used = range(1, SLOTS + 1) if full else draw.sample(range(1, SLOTS + 1), draw.randint(0, min(len(blocks), 12)))
        return self.card(shape, {slot: entry(slot, block, block, f"map {slot}") for slot, block in zip(used, blocks)}, number)

    def drawn_repair(self, draw, card):
        """A repair that is cut and begun again, up to three times, and then goes to its end."""
        for _ in range(draw.choice((0, 1, 1, 1, 2, 3))):
            card.repair(draw.randint(1, card.repair_stages() - 1))
            self.cut(card)
        self.mended(card)

    def history(self, number):
        """Some updates of one card, plain or by stages and cut anywhere, with repairs after them and updates after the repairs."""
        draw = random.Random(f"{self.seed} {number}")
        card = self.drawn_card(draw, number)
        for _ in range(draw.randint(1, 8)):
            if self.cuts + self.wrong >= self.limit:
                return
            slot, raw = self.drawn_update(draw, card)
            if draw.random() < 0.1:
                card.plain(slot, raw)
                continue
            card.update(slot, raw, draw.choice((0, 1, 1, 2, 2, 3, 3, 4)))
            self.cut(card)
            if card.checked != GOOD or draw.random() < 0.2:
                self.drawn_repair(draw, card)

    def histories(self, cuts):
        """Histories with so many cuts together."""
        self.limit, number = self.cuts + self.wrong + cuts, 0
        while self.cuts + self.wrong < self.limit:
            number += 1
            self.tried(f"history {number}", self.history, number)


def options():
    """The command line."""
    parser = argparse.ArgumentParser(description=__doc__)
    parser.add_argument("--seed", type=int, default=None, help="the number that determines all random values")
    parser.add_argument("--cuts", type=int, default=None, help="how many random cuts: 10,000, or 300 with --quick")
    parser.add_argument("--quick", action="store_true", help="the slots at the edges of blocks alone, and few random cuts")
    parser.add_argument("--library", default=str(BUILT), help="the library to try")
    parser.add_argument("--model", action="store_true", help="a stand-in made of tests/model in place of the library")
    parser.add_argument("--folder", default=MEMORY if os.access(MEMORY, os.W_OK) else None, help="where the file lies")
    return parser.parse_args()


def calls_of(given):
    """The calls of the library, or of its stand-in."""
    if given.model:
        import standin

        return standin.Standin()
    return staged.Library(os.path.abspath(given.library))


def main():
    """Prints the seed, makes all cuts, and ends with 1 if one is wrong."""
    given = options()
    seed = secrets.randbelow(1 << 32) if given.seed is None else given.seed
    print(f"seed {seed}", flush=True)
    if not given.model and not os.path.isfile(given.library):
        print(f"there is no library at {given.library}: make lib builds it")
        return 1
    with tempfile.TemporaryDirectory(dir=given.folder) as folder:
        cuts = Cuts(calls_of(given), os.path.join(folder, "card.img"), seed)
        cuts.every_slot(EDGES if given.quick else range(1, SLOTS + 1))
        cuts.constructed(EDGES[::2] if given.quick else EDGES)
        cuts.histories(given.cuts if given.cuts is not None else 300 if given.quick else 10000)
    print(f"cuts: {cuts.cuts:,} cuts, {cuts.wrong:,} wrong (seed {seed})")
    return 1 if cuts.wrong else 0


if __name__ == "__main__":
    sys.exit(main())
