"""Runs the model against the library: random, damaged and edge images, each call compared in its answer and in every lent byte."""

import argparse
import pathlib
import secrets
import sys
import time

import cases
import compare
import coverage
import damage
import ends
import fixed
import foreign
import images
import library
import model
import pulled
import rare
import shapes
import wide
from draws import Draw
from known import GUID
from sums import FRESH

BUILT = pathlib.Path(__file__).resolve().parents[2] / "target" / "lib" / "libcard.so"
LENGTHS = [0, 1, 15, 439, 440, 443, 444, 511, 512, 513, 603, 604, 1024, 1535, 1536, 1600, 4095, 4096, 4097, 4187, 4188, 8192, 12287, 12288]


class Difference(Exception):
    """The library and the model answered differently."""

    def __init__(self, case):
        super().__init__(case.name)
        self.case = case


class Finished(Exception):
    """The time or the number of calls is used up."""


class Rounds:
    """Images and calls on them, drawn from one seed, until the time or the number of calls is used up."""

    def __init__(self, calls, seed, seconds, count, only=()):
        self.calls = calls
        self.draw = Draw(seed)
        self.end = None if count else time.monotonic() + seconds
        self.count = count
        self.only = only
        self.seen = coverage.Coverage(only or coverage.NUMBERS)
        self.compared = 0

    def judge(self, steps, image, name, args):
        """Compares one call; gives the model's answer. Without steps the call takes no image."""
        if self.compared >= self.count if self.count else time.monotonic() > self.end:
            raise Finished
        self.compared += 1
        given = ends.given(name, image, args) if steps else args
        right = model.CALLS[name](*given)
        self.seen.saw(name, right[0], model.CALLS[name].step, right[3])
        if compare.library_answer(self.calls, name, given) != right:
            raise Difference(compare.Case(list(steps), name, args))
        return right

    def change(self, steps, image, name, args):
        """Compares a call that changes the image, adds it to the steps and gives the new image."""
        answer = self.judge(steps, image, name, args)
        if answer[0] == 0:
            steps.append(("call", name, *args))
        return ends.left(name, image, args, answer[2])

    def ask(self, steps, image, b, how_many):
        """Some calls on one image, with arguments of their own; the image stays."""
        names = list(cases.ON_IMAGE)
        for _ in range(how_many):
            name = self.draw.pick(names)
            self.judge(steps, image, name, cases.ON_IMAGE[name](self.draw, image, b))

    def ask_hurt(self, steps, image, b, hurt):
        """The check, put, plain and by its first stage, and some more calls on a damaged copy of an image, over windows too."""
        hurt_image = images.made_from(image, hurt)
        self.judge(steps + hurt, hurt_image, "card_check", (b,))
        args = cases.put_call(self.draw, hurt_image, b)
        self.judge(steps + hurt, hurt_image, "card_put", args)
        self.judge(steps + hurt, hurt_image, "card_start_put", args)
        self.ask(steps + hurt, hurt_image, b, 8)
        wide.ask(self, steps + hurt, hurt_image, b, 3)
        wide.ask_alike(self, steps + hurt, hurt_image, b, 1)

    def ask_foreign(self, steps, image, b):
        """The calls of both reading editions on an image with tables by another maker."""
        hurt = foreign.tables(self.draw, image, b)
        foreign_image = images.made_from(image, hurt)
        for name in foreign.CALLS:
            self.judge(steps + hurt, foreign_image, name, cases.ON_IMAGE[name](self.draw, foreign_image, b))

    def ask_loose(self, b, how_many):
        """Some calls that take no image."""
        names = self.only or list(cases.LOOSE)
        for _ in range(how_many):
            name = self.draw.pick(names)
            self.judge([], None, name, cases.LOOSE[name](self.draw, b))

    def ask_cut(self):
        """One slice, summed in pieces and as a whole: the last running value is the sum of the whole slice."""
        data = cases.summed_data(self.draw)
        running = FRESH
        for piece in cases.pieces(self.draw, data):
            running = self.judge([], None, "gpt_crc32_next", (running, piece))[1][0]
        if self.judge([], None, "gpt_crc32", (data,))[1] != (running,):
            raise RuntimeError(f"cut into pieces, these bytes do not sum as the whole: {data.hex()}")

    def start(self, b):
        """The first step of an image: its length and its filling."""
        draw = self.draw
        room = (2 * (16384 // b) + 4) * b
        kind = draw.below(10)
        if kind < 2:
            edges = [b - 1, b, b + 91, b + 92, 2 * b - 1, 2 * b, 3 * b - 1, 3 * b, room - b, room - 1]
            length = draw.pick(LENGTHS if draw.chance(60) else edges)
        elif kind < 5:
            length = room + draw.pick((0, 1, b - 1, b))
        else:
            length = room + draw.below(24) * b + draw.pick((0, 0, 0, 1, b - 1))
        return ("start", length, 0 if draw.chance(40) else 1 + draw.below(1 << 32))

    def history(self, steps, image, b):
        """A laid card with puts, their first stages, clears and payload writes, at times with all 128 slots used."""
        draw = self.draw
        image = self.change(steps, image, "card_lay", (b, draw.guid()))
        for _ in range(draw.pick((0, 1, 3, 6, 12, 24))):
            name = draw.pick(("card_put",) * 3 + ("card_map_put", "card_clear", "card_map_clear") + ("card_write_payload",) * 2)
            args = cases.ON_IMAGE[name](draw, image, b)
            if name == "card_put":
                self.judge(steps, image, "card_start_put", args)
            image = self.change(steps, image, name, args)
        return image

    def full_table(self, b):
        """A card with 128 used slots of one block each, in any order of blocks."""
        draw = self.draw
        first = 2 + 16384 // b
        steps = [("start", (2 * first + 128) * b + draw.below(b), 0)]
        image = self.change(steps, images.made(steps), "card_lay", (b, draw.guid()))
        blocks = list(range(first, first + 128))
        draw.random.shuffle(blocks)
        for slot, block in enumerate(blocks, 1):
            record = draw.record()._replace(part_type_guid=GUID, part_guid=draw.any_guid(), reserved=0)
            record = record._replace(first_lba=block, last_lba=block)
            image = self.change(steps, image, "card_put", (b, slot, record))
        self.ask(steps, image, b, 40)
        for _ in range(6):
            self.ask_hurt(steps, image, b, damage.twin_guid(draw, image, b))
        pulled.ask_pulled(self, steps, image, b)

    def round(self):
        """One image with its history, calls on it, and calls on damaged copies of it."""
        draw = self.draw
        b = draw.pick((512, 512, 4096))
        steps = [self.start(b)]
        image = images.made(steps)
        if draw.chance(90):
            image = self.history(steps, image, b)
        self.ask(steps, image, b, 18)
        for _ in range(8):
            self.ask_hurt(steps, image, b, damage.damage(draw, image, b))
        pulled.ask_pulled(self, steps, image, b)
        wide.ask_whole(self, steps, image, b)
        wide.ask_labels(self, steps, image, b)
        wide.ask_large(self, b)
        rare.ask(self, steps, image, b)
        for _ in range(4):
            self.ask_foreign(steps, image, b)
        self.ask_loose(b, 50)
        self.ask_cut()

    def run(self):
        """Rounds until the end, a full table now and then; or some calls that take no image, and nothing else."""
        rounds = 0
        try:
            while self.only:
                self.ask_loose(self.draw.pick((512, 4096)), 50)
            while True:
                if rounds % 25 == 3:
                    self.full_table(self.draw.pick((512, 4096)))
                self.round()
                rounds += 1
        except Finished:
            return


def options():
    """The command line."""
    parser = argparse.ArgumentParser(description=__doc__)
    parser.add_argument("--seed", type=int, default=None, help="the number that determines all random values")
    parser.add_argument("--seconds", type=float, default=30, help="how long to run")
    parser.add_argument("--cases", type=int, default=0, help="how many calls to compare, in place of a time")
    parser.add_argument("--library", default=str(BUILT), help="the library to try")
    parser.add_argument("--only", nargs="+", default=(), choices=sorted(cases.LOOSE), metavar="CALL", help="compare these calls alone, which take no image, and try no known answers")
    parser.add_argument("--alone", action="store_true", help="try the model by itself, without a library")
    return parser.parse_args()


def fixed_cases(calls):
    """Tries the declarations and the cases with known answers; gives whether all were right."""
    lines = [f"declared: {line}" for line in shapes.wrong()]
    lines += [f"model: {line}" for line in fixed.wrong(model.CALLS)]
    if calls is model.CALLS:
        lines += [f"model: {line}" for line in fixed.wrong_ways()]
    else:
        lines += [f"library: {line}" for line in fixed.wrong(calls)]
    lines += list(fixed.wrong_sums())
    print("\n".join(lines) if lines else "the cases with known answers are right")
    return not lines


def main():
    """Prints the seed, runs, prints the coverage and ends with 1 on a difference or on a number that was never seen."""
    given = options()
    seed = secrets.randbelow(1 << 32) if given.seed is None else given.seed
    print(f"seed {seed}", flush=True)
    if not given.alone and not pathlib.Path(given.library).is_file():
        print(f"there is no library at {given.library}: make lib builds it")
        return 1
    calls = model.CALLS if given.alone else library.load(given.library)
    if not given.only and not fixed_cases(calls):
        return 1
    rounds = Rounds(calls, seed, given.seconds, given.cases, given.only)
    try:
        rounds.run()
    except Difference as difference:
        print("\n".join(compare.told(calls, compare.shrink(calls, difference.case))))
        print(f"model: {rounds.compared} calls compared, a difference (seed {seed})")
        return 1
    except pulled.Broken as broken:
        print(f"model: a promise of document 02 is not kept (seed {seed}): {broken}")
        return 1
    print("\n".join(rounds.seen.table()))
    missing = list(rounds.seen.missing())
    print("\n".join(missing) if missing else "each number of each call was seen")
    against = "with itself" if given.alone else "compared, 0 differences"
    print(f"model: {rounds.compared} calls {against} (seed {seed})")
    return 1 if missing else 0


if __name__ == "__main__":
    sys.exit(main())
