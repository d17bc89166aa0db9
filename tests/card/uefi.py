"""uefi: both tables by the second edition, of cards and of tables that other makers' headers and entries make."""
import gpt
from bench import like
from check import damaged

ENTRIES = {1: gpt.Entry(60, 65, "map 2026-11-15", gpt.guid(1)), 3: gpt.Entry(66, 85, "höhen 高程", gpt.guid(3), gpt.TYPES["linux"], 4), 16: gpt.Entry(86, 90, "notes", gpt.guid(16))}
FLAGS = {1: "-", 3: "LegacyBIOSBootable", 16: "-"}


def tables(b, image, size):
    """What uefi says of each table: the rows and the count, or the refusal."""
    b.store("a.img", image)
    done = b.run("uefi", "a.img", "-b", size)
    lines, found, at = done.out.splitlines(), {}, None
    for line in lines:
        for name in ("front", "back"):
            if line.startswith(f"{name} table:"):
                at, found[name] = name, []
                line = line[len(f"{name} table:"):].strip()
        if at and line:
            found[at].append(line)
    return done, found


def reads(b, what, image, size, front=None, back=None):
    """Each table read, or refused by its number."""
    done, found = tables(b, image, size)
    b.equal(f"uefi of {what}: status", done.status, 1 if front and back else 0)
    b.true(f"uefi of {what}: standard error", not done.err or front and back and done.err.startswith("card: a.img: "), done.err)
    b.equal(f"uefi of {what}: both tables are named, the front one first", list(found), ["front", "back"])
    for name, number in (("front", front), ("back", back)):
        lines = found.get(name) or [""]
        if number:
            b.equal(f"uefi of {what}: the {name} table", "\n".join(lines), like(f"refused: {{..}} {{..}} [{number}]"))
        else:
            b.equal(f"uefi of {what}: the {name} table", gpt.listed(lines), [gpt.row(s, e, size, FLAGS[s]) for s, e in ENTRIES.items()])
            b.equal(f"uefi of {what}: the {name} table's last line", lines[-1], "used 3")


def run(b):
    for size in (512, 4096):
        whole = gpt.card(300, size, ENTRIES)
        reads(b, f"a card at {size}", whole, size)
        for number in (4, 5, 6):
            reads(b, f"a card whose front is {number}", damaged(whole, size, True, number), size, front=number)
            reads(b, f"a card whose back is {number}", damaged(whole, size, False, number), size, back=number)
        reads(b, "a card of which both are wrong", damaged(damaged(whole, size, True, 4), size, False, 6), size, 4, 6)
        for each, count in ((128, 16), (128, 132), (256, 16), (512, 16), (4096, 16)):
            reads(b, f"{count} entries of {each} at {size}", gpt.foreign(400, size, ENTRIES, each, count), size)
        for stated in (92, 96, 200, size):
            reads(b, f"a header of {stated} bytes at {size}", gpt.foreign(300, size, ENTRIES, 256, 32, stated), size)
        reads(b, "a header of 91 bytes", gpt.foreign(300, size, {}, stated=91), size, 29, 29)
        reads(b, "a header longer than its block", gpt.foreign(300, size, {}, stated=size + 1), size, 29, 29)
        reads(b, "a byte behind the header", gpt.foreign(300, size, {}, stated=100, after=b"\1"), size, 30, 30)
        reads(b, "headers that name another block", gpt.foreign(300, size, {}, off=1), size, 31, 31)
        for each, count in ((384, 16), (64, 128), (8192, 4)):
            reads(b, f"entries of {each}", gpt.foreign(400, size, {}, each, count), size, 7, 7)
    refused(b)


def refused(b):
    """What no card check takes is read all the same, and nothing is changed; what no edition takes is no crash."""
    b.store("a.img", gpt.foreign(300, 512, ENTRIES, 256, 16))
    b.refuses(("check", "a.img"), like("card: a.img: front table: it is not laid out as a card's; {..} [16]\n"))
    old = b.bytes("a.img")
    b.run("uefi", "a.img")
    b.true("uefi changes nothing", b.bytes("a.img") == old)
    for what, image in (("zeros", bytes(65536)), ("random bytes", b.rng.randbytes(65536)), ("an empty file", b""), ("a byte", b"x"), ("a block", bytes(512)), ("a block and a half", bytes(700)),
                        ("a header that points far away", gpt.sealed(gpt.stored(gpt.card(128), 512 + 72, b"\xff" * 8), 512, True, array=False))):
        done, found = tables(b, image, 512)
        far = what.startswith("a header")
        b.true(f"uefi of {what}: status", done.status in ((0,) if far else (1, 3)), done)
        b.true(f"uefi of {what}: words", "refused: " in done.out or done.err.startswith("card: a.img"), done)
