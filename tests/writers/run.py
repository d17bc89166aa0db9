"""Two benches write different tiles to two files with the same tables, by the same plan: every answer is the same, and so are the blocks of both tables after each call.

Run by `make writers`. It goes through hosts/python, so target/lib/libcard.so has to be there.
"""

import argparse
import pathlib
import random
import secrets
import sys
import tempfile
import uuid

ROOT = pathlib.Path(__file__).resolve().parents[2]
sys.path.insert(0, str(ROOT / "hosts" / "python"))

import card  # noqa: E402

ARRAY = 16384
TOLD = 20


class Bench:
    """One file: its bytes, the block size, and the blocks that both tables have."""

    def __init__(self, path, image, b):
        self.path, self.b = path, b
        blocks, array = len(image) // b, ARRAY // b
        self.watched = (slice(b, (2 + array) * b), slice((blocks - array - 1) * b, blocks * b))
        path.write_bytes(image)

    def image(self):
        return bytearray(self.path.read_bytes())

    def tables(self):
        image = self.image()
        return [bytes(image[part]) for part in self.watched]

    def made(self, name, arguments):
        """Makes a call on the file's bytes, and gives its answer as a text: a refusal by its number, slot and place."""
        image = self.image()
        try:
            answer = repr(getattr(card, name)(image, self.b, *arguments))
        except card.Refused as refusal:
            answer = f"{refusal} {refusal.number} {refusal.slot} {refusal.place}"
        self.path.write_bytes(image)
        return answer


class Plan:
    """What both benches do: calls drawn from a seed, with the states that earlier stages handed back."""

    def __init__(self, draw, blocks, b):
        self.draw, self.blocks, self.b, self.array = draw, blocks, b, ARRAY // b
        self.states = {"next_stage": [], "next_repair": []}
        self.begun = None

    def record(self):
        low, high = 2 + self.array, self.blocks - self.array - 2
        first = self.draw.randint(low - 1, high + 1)
        kind = uuid.UUID(int=0) if self.draw.random() < 0.05 else card.BASIC_DATA
        name = self.draw.choice(("north ridge", "south ridge", "lake"))
        return card.Record(kind, uuid.UUID(int=self.draw.randint(1, 40)), first, first + self.draw.randint(0, 3), name=name)

    def slot(self):
        return self.draw.choice((1, 2, 3) if self.draw.random() < 0.85 else (0, 5, 64, 65, 128, 129))

    def call(self):
        """The name of the next call, and its arguments for each bench: they differ in a payload's bytes alone."""
        draw = self.draw
        name = draw.choices(
            ("put", "clear", "write_payload", "listing", "free_runs", "slot_map", "check", "reader_copy", "reader_listing", "start_put", "start_clear", "next_stage", "start_repair", "next_repair"),
            (20, 3, 24, 4, 4, 3, 3, 3, 4, 4, 2, 2, 2, 2),
        )[0]
        # What was begun goes on more often than not: else most calls would find a cut card.
        if self.begun and self.states[self.begun][-1].next <= self.states[self.begun][-1].stages() and draw.random() < 0.9:
            name = self.begun
        if name in ("put", "start_put"):
            both = (self.slot(), self.record())
        elif name in ("clear", "start_clear"):
            both = (self.slot(),)
        elif name == "write_payload":
            slot, place, length = self.slot(), draw.choice((0, 1, 511, self.b, 4 * self.b)), draw.choice((0, 1, 13, 700))
            return name, (slot, place, draw.randbytes(length)), (slot, place, draw.randbytes(length))
        elif name in self.states:
            if not self.states[name]:
                return "check", (), ()
            state = self.states[name][-1]
            both = (state.next if draw.random() < 0.9 else draw.randint(0, 7), state)
        else:
            both = ()
        return name, both, both

    def took(self, name, answer):
        """Keeps the state that a stage handed back."""
        made = {"start_put": "next_stage", "start_clear": "next_stage", "start_repair": "next_repair"}.get(name, name)
        if made in self.states and answer.startswith(("Update(", "Repair(")):
            self.begun = made
            self.states[made].append(eval(answer, {"Update": card.Update, "Repair": card.Repair, "UUID": uuid.UUID}))


def two_files(folder, draw, b, blocks, ragged):
    """Two images with one card's tables and random bytes everywhere else, block 0 and the bytes after the last whole block among them."""
    whole = bytearray(blocks * b)
    card.lay(whole, b, uuid.UUID(int=draw.getrandbits(128)))
    benches = []
    for name in ("one", "two"):
        image = bytearray(draw.randbytes(blocks * b + ragged))
        bench = Bench(folder / name, image, b)
        for part in bench.watched:
            image[part] = whole[part]
        bench.path.write_bytes(image)
        benches.append(bench)
    return benches


def session(folder, draw, calls):
    """Some calls on two files; gives how many calls were made and what was wrong."""
    b = draw.choice((512, 4096))
    blocks = 2 * (ARRAY // b) + 4 + draw.randint(0, 40)
    one, two = two_files(folder, draw, b, blocks, draw.choice((0, 0, 1, b - 1)))
    plan = Plan(draw, blocks, b)
    wrong = []
    for number in range(calls):
        name, first, second = plan.call()
        answers = one.made(name, first), two.made(name, second)
        if answers[0] != answers[1]:
            wrong.append(f"call {number}, {name}{first!r}: {answers[0]} and {answers[1]}")
        if one.tables() != two.tables():
            wrong.append(f"call {number}, {name}{first!r}: the tables differ")
        if name == "write_payload" and not answers[0].startswith("refused"):
            wrong += [f"call {number}: the bytes are not in file {bench.path.name}" for bench, data in ((one, first[2]), (two, second[2])) if data not in bench.image()]
        plan.took(name, answers[0])
        if wrong:
            break
    return number + 1, wrong


def main():
    parser = argparse.ArgumentParser(description="Two writers on one card.")
    parser.add_argument("--seed", type=int, default=secrets.randbelow(1 << 32))
    parser.add_argument("--calls", type=int, default=3000)
    options = parser.parse_args()
    print(f"writers: seed {options.seed}")
    draw, made, wrong = random.Random(options.seed), 0, []
    with tempfile.TemporaryDirectory() as folder:
        while made < options.calls and len(wrong) < TOLD:
            some, bad = session(pathlib.Path(folder), draw, min(60, options.calls - made))
            made += some
            wrong += bad
    for line in wrong:
        print(line)
    print(f"writers: {made} calls on two files, {len(wrong)} wrong (seed {options.seed})")
    return 1 if wrong else 0


if __name__ == "__main__":
    sys.exit(main())
