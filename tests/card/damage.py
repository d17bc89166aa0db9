"""Drawn damage of the tables, with and without right sums: no command ends but by one of its four statuses and in words, what is refused changes nothing, and what repair mends is whole."""
import gpt

ENTRIES = {1: gpt.Entry(34, 37, "map", gpt.guid(1)), 6: gpt.Entry(60, 94, "roads", gpt.guid(6)), 128: gpt.Entry(40, 41, "end", gpt.guid(128))}
READERS = (("check",), ("list",), ("list", "--json"), ("list", "--map"), ("free",), ("show",), ("uefi",), ("report",), ("read", "1"), ("screen", "1"))
WRITERS = (("put", "next", "--size", "512"), ("clear", "1"), ("label", "1", "--date", "2026-05-01", "--style", "3", "--sheet", "1"), ("grow",), ("repair",))


def drawn(rng, size):
    """A card with bytes drawn into one table or both, some of them under right sums."""
    image = gpt.card(128, size, ENTRIES)
    for _ in range(rng.randrange(1, 4)):
        front = rng.random() < 0.5
        head, array = gpt.places(len(image), size, front)
        kind = rng.randrange(4)
        if kind == 0:
            image = gpt.stored(image, head + rng.randrange(92), rng.randbytes(rng.choice([1, 1, 8])))
        elif kind == 1:
            image = gpt.stored(image, head + rng.choice([12, 24, 32, 40, 48, 72, 80, 84]), rng.choice([b"\xff" * 8, bytes(8), rng.randbytes(8)]))
        else:
            slot = rng.choice([1, 2, 6, 128])
            image = gpt.stored(image, array + 128 * (slot - 1) + rng.choice([0, 16, 32, 40, 48, 56, rng.randrange(128)]), rng.randbytes(rng.choice([1, 8, 16, 72]))[:128])
        if rng.random() < 0.7:
            image = gpt.sealed(image, size, front)
    return image[:128 * size]


def ended_well(b, what, done):
    b.true(f"{what}: ends in words, by a status of its own", done.status in (0, 1, 3) and "panicked" not in done.err and all(line.startswith("card: ") for line in done.err.splitlines()), done)
    b.true(f"{what}: a refusal has a line, and a number", done.status == 0 or done.err.startswith("card: "), done)


def commands(b, image, size, name):
    """Every command on the image: none but a writing one that ends by 0 changes a byte."""
    for words in (*READERS, *WRITERS):
        b.store("a.img", image)
        done = b.run(words[0], "a.img", *words[1:], "-b", size)
        what = f"{name}: card {' '.join(words)}"
        ended_well(b, what, done)
        changed = b.bytes("a.img") != image
        b.true(f"{what}: no byte changes where it is refused or reads", not changed or words in WRITERS and done.status == 0, done)
        if words[0] == "repair" and done.status == 0:
            b.equal(f"{what}, then check", b.run("check", "a.img", "-b", size).status, 0)


def run(b):
    for turn in range(8):
        size = b.rng.choice([512, 512, 4096])
        image = drawn(b.rng, size)
        commands(b, image, size, f"damage {turn} at {size}")
        b.store("a.img", image)
        accepted, shown = b.run("check", "a.img", "-b", size), b.run("show", "a.img", "-b", size)
        b.true(f"damage {turn}: show says what check says", ("the check accepts the card" in shown.out) == (accepted.status == 0), f"{accepted} {shown}")
