"""Drawn commands, one after the other, beside a dictionary of slots: after each the status, the number of the refusal and every byte of the file."""
import re

import gpt

BLOCKS = {512: 220, 4096: 150}


class Model:
    """The card as a dictionary of slots and the bytes outside the tables."""

    def __init__(self, size):
        self.size, self.blocks, self.entries = size, BLOCKS[size], {}
        self.image = bytes([0x5A]) * (self.blocks * size + 11)

    def bytes(self):
        return gpt.over(self.image, self.size, self.entries)

    def put(self, slot, first, last, guid, kind):
        """The number of a put's refusal, or 0."""
        low, high = gpt.usable(self.blocks, self.size)
        if not 1 <= slot <= 128:
            return 18
        if kind == "00000000-0000-0000-0000-000000000000":
            return 19
        if last < first:
            return 20
        if first < low or last > high:
            return 21
        others = [e for s, e in self.entries.items() if s != slot]
        if any(e.first <= last and first <= e.last for e in others):
            return 22
        return 25 if any(e.guid == guid for e in others) else 0

    def payload(self, slot, at, length):
        """The number of the refusal of bytes of a slot, or 0."""
        if not 1 <= slot <= 128:
            return 18
        if slot not in self.entries:
            return 23
        e = self.entries[slot]
        return 24 if at + length > (e.last - e.first + 1) * self.size else 0

    def store(self, slot, at, data):
        self.image = gpt.stored(self.image, self.entries[slot].first * self.size + at, data)


def a_slot(rng, model):
    return rng.choice([0, 129, *range(1, 8), *model.entries, *model.entries, 127, 128])


def draw_put(rng, model):
    low, high = gpt.usable(model.blocks, model.size)
    slot, first = a_slot(rng, model), rng.randrange(low - 2, high + 3)
    last = min(first + rng.randrange(-1, 12), high + 1)
    e = gpt.Entry(first, last, rng.choice(["", "map", "höhen 高", 'a "b"', "x" * 36]), gpt.guid(rng.randrange(1, 30)), rng.choice([*gpt.TYPES.values(), gpt.TYPES["data"], "00000000-0000-0000-0000-000000000000"]))
    number = model.put(slot, first, last, e.guid, e.type)
    if not number:
        model.entries = dict(sorted({**model.entries, slot: e}.items()))
    return ("put", "a.img", slot, "--first", first, "--last", last, f"--name={e.name}", "--guid", e.guid, "--type", e.type, "--replace"), number, None


def draw_clear(rng, model):
    slot = a_slot(rng, model)
    wipe = rng.random() < 0.3
    if slot in model.entries:
        e = model.entries[slot]
        if wipe:
            model.store(slot, 0, bytes((e.last - e.first + 1) * model.size))
        model.entries = {s: e for s, e in model.entries.items() if s != slot}
    return ("clear", "a.img", slot, *(("--wipe",) if wipe else ())), 0 if 1 <= slot <= 128 else 18, None


def draw_write(rng, model):
    slot, at, data = a_slot(rng, model), rng.choice([0, 13, rng.randrange(3000)]), rng.randbytes(rng.choice([0, 1, 600, rng.randrange(5000)]))
    number = model.payload(slot, at, len(data))
    if not number:
        model.store(slot, at, data)
    return ("write", "a.img", slot, "src", "--at", at), number, data


def draw_label(rng, model):
    slot, month, day = a_slot(rng, model), rng.choice([0, 1, 12, 13]), rng.choice([1, 31, 32])
    style, sheet = rng.randrange(65536), rng.randrange(65536)
    number = model.payload(slot, 0, 13) or (0 if 1 <= month <= 12 and day <= 31 else 36)
    if not number:
        model.store(slot, 0, gpt.label(2026, month, day, style, sheet))
    return ("label", "a.img", slot, "--date", f"2026-{month:02}-{day:02}", "--style", style, "--sheet", sheet), number, None


def seen(b, model):
    """What the reading commands say of the card now."""
    size = model.size
    rows = [gpt.row(s, e, size) for s, e in model.entries.items()]
    b.equal("drawn: list", gpt.listed(b.run("list", "a.img", "-b", size).out.splitlines()), rows)
    b.equal("drawn: show", gpt.listed(b.run("show", "a.img", "-b", size).out.splitlines()[1:]), rows)
    runs = [tuple(map(int, line.split()[:2])) for line in b.run("free", "a.img", "-b", size).out.splitlines()[1:-1]]
    b.equal("drawn: free", runs, gpt.runs(model.blocks, size, model.entries))
    for slot, e in model.entries.items():
        done = b.run("read", "a.img", slot, "-b", size, binary=True)
        b.true(f"drawn: read {slot}", done.out == model.image[e.first * size:(e.last + 1) * size], done.err)


def run(b):
    for size in (512, 4096):
        model = Model(size)
        b.store("a.img", model.bytes())
        for turn in range(100):
            words, number, data = b.rng.choice([draw_put, draw_put, draw_clear, draw_write, draw_label])(b.rng, model)
            if data is not None:
                b.store("src", data)
            done = b.run(*words, "-b", size)
            came = re.search(r"\[(\d+)\]\n$", done.err)
            line = f"drawn {turn}: card {' '.join(map(str, words))} -b {size}"
            b.equal(f"{line}: status and number", (done.status, int(came[1]) if came else 0), (1 if number else 0, number))
            if not b.true(f"{line}: the bytes", b.bytes("a.img") == model.bytes(), done):
                b.store("a.img", model.bytes())
            if turn % 25 == 24:
                seen(b, model)
