"""Commands that are cut after each of their writes, as strace saw them: grow, lay, repair and apply; and the order in which blocks are stored."""
import apply
import gpt
import grow
import straced
from grow import ENTRIES


def advised(b, size):
    """Does what the check's refusal says, until it accepts or says nothing more."""
    for _ in range(3):
        words = b.run("check", "a.img", "-b", size).err
        command = next((c for c in ("grow", "repair") if f"card {c} " in words), None)
        if not command:
            return
        b.run(command, "a.img", "-b", size)


def cut_grow(b):
    """Cut after each of its writes, what the check then advises brings every slot back. Where the card grew by less than a table, the new one lies over the old."""
    for size, more in ((512, 72), (512, 1), (512, 20), (4096, 72), (4096, 1), (4096, 3)):
        image = gpt.card(128, size, ENTRIES, fill=0xA5) + bytes(more * size)
        b.store("a.img", image)
        found, done = straced.events(b, ("grow", "a.img", "-b", size), "a.img")
        steps = list(straced.prefixes(image, found))
        b.true("grow under strace: the writes seen are the writes done", done.status == 0 and steps[-1] == b.bytes("a.img") and len(steps) > 2, f"{done} {len(steps)}")
        for count, step in enumerate(steps):
            b.store("a.img", step)
            shown = b.run("show", "a.img", "-b", size)
            rows = gpt.listed(shown.out.splitlines()[1:]) if shown.status == 0 else None
            b.true(f"grow by {more} at {size}, cut after {count} writes: show has all slots, or says the card has grown", rows == [gpt.row(s, e, size) for s, e in ENTRIES.items()] if shown.status == 0 else shown.status == 1, shown)
            advised(b, size)
            b.equal(f"grow by {more} at {size}, cut after {count} writes, mended as check advises: check", b.run("check", "a.img", "-b", size).err, "")
            b.equal(f"grow by {more} at {size}, cut after {count} writes, mended as check advises: list", grow.listed(b, size), [gpt.row(s, e, size) for s, e in ENTRIES.items()])


def shown_slots(done):
    """What the reader shows: the list, or nothing."""
    return gpt.listed(done.out.splitlines()[1:]) if done.status == 0 else None


def cut_lay(b):
    """A lay that is cut shows the old table or the new one, and each block is stored before the next is written."""
    old_rows = [gpt.row(s, e, 512) for s, e in ENTRIES.items()]
    for what, image, old in (("over a card", gpt.card(128, entries=ENTRIES), old_rows), ("over zeros", bytes(65536), None), ("over random bytes", b.rng.randbytes(65536), None)):
        b.store("a.img", image)
        found, done = straced.events(b, ("lay", "a.img", "--force", "--guid", gpt.guid(0x99)), "a.img")
        steps = list(straced.prefixes(image, found))
        b.true(f"lay {what} under strace: the writes seen are the writes done", done.status == 0 and steps[-1] == b.bytes("a.img"), f"{done} {len(steps)}")
        kinds = [e.kind for e in found if e.kind in ("write", "sync") and (e.kind == "sync" or e.length)]
        pairs = [kinds[i + 1:i + 2] for i, k in enumerate(kinds) if k == "write"]
        b.true(f"lay {what}: each write is stored before the next", pairs and all(p == ["sync"] for p in pairs), kinds)
        blocks = [e for e in found if e.kind == "write" and (e.place % 512 or e.length != 512)]
        b.equal(f"lay {what}: a block at a time", blocks, [])
        turned = False
        for count, step in enumerate(steps):
            b.store("a.img", step)
            rows = shown_slots(b.run("show", "a.img"))
            turned = turned or rows == []
            b.equal(f"lay {what}, cut after {count} writes: the new table, or the old one and never again", rows, [] if turned else old)
        b.true(f"lay {what}: it ends with the new table", turned)


def cut_repair(b):
    """A repair stores one block after the other; cut after each of them, the reader shows the same slots."""
    rows = [gpt.row(s, e, 4096) for s, e in ENTRIES.items()]
    for front in (True, False):
        head, array = gpt.places(128 * 4096, 4096, front)
        whole = gpt.card(128, 4096, ENTRIES)
        image = gpt.stored(gpt.stored(whole, head, b"\x5a" * 4096), array, b"\x5a" * 16384)
        b.store("a.img", image)
        found, done = straced.events(b, ("repair", "a.img", "-b", "4096"), "a.img")
        kinds = [e.kind for e in found if e.kind in ("write", "sync")]
        b.equal("repair at 4096: six stores, each stored before the next", kinds[:12], ["write", "sync"] * 6)
        for count, step in enumerate(straced.prefixes(image, found)):
            b.store("a.img", step)
            b.equal(f"repair at 4096, cut after {count} stores", shown_slots(b.run("show", "a.img", "-b", "4096")), rows)


def payloads(b):
    """A write is read back once it is stored; a wipe is stored before its slot is cleared; a write that the disk forgets is not called verified."""
    image, data = gpt.card(128, entries=ENTRIES), b.rng.randbytes(900)
    b.store("src", data)
    for words, first, length in ((("write", "a.img", "1", "src"), 34 * 512, 900), (("label", "a.img", "1", "--date", "2026-05-01", "--style", "3", "--sheet", "1"), 34 * 512, 13)):
        b.store("a.img", image)
        found, _ = straced.events(b, words, "a.img")
        kinds = ["write" if e.kind == "write" else "sync" if e.kind == "sync" else "back" for e in found if e.kind in ("write", "sync") or e.kind == "read" and e.place >= first and e.place + e.length <= first + length]
        b.true(f"{words[0]}: written, stored, and then read back", "sync" in kinds and kinds.index("write") < kinds.index("sync") and kinds[-1] == "back" or kinds[-1:] == ["sync"] and "back" in kinds, kinds)
        b.store("a.img", image)
        done = b.run(*words, before=straced.injected(b.path("a.img"), "pwrite64,write", f"retval={length}:when=1"))
        b.true(f"{words[0]} that the disk forgets is not verified", done.status in (1, 3) and "verified" not in done.out, done)
    b.store("a.img", gpt.stored(image, 60 * 512, b"x" * 35 * 512))
    found, _ = straced.events(b, ("clear", "a.img", "6", "--wipe"), "a.img")
    kinds = ["sync" if e.kind == "sync" else "payload" if 60 * 512 <= e.place < 95 * 512 else "table" for e in found if e.kind in ("write", "sync")]
    first = kinds.index("table") if "table" in kinds else 0
    b.true("clear --wipe: the zeros are stored before the table changes", "payload" in kinds[:first] and kinds[first - 1] == "sync" and "payload" not in kinds[first:], kinds)


def order(b):
    """put and clear: four blocks, each stored before the next is written, the back table first."""
    for size in (512, 4096):
        for words, slot in ((("put", "a.img", "40", "--first", "42", "--last", "43", "--guid", gpt.guid(40)), 40), (("clear", "a.img", "6"), 6)):
            b.store("a.img", gpt.card(128, size, ENTRIES))
            found, _ = straced.events(b, (*words, "-b", size), "a.img")
            came = [(e.kind, e.place if e.kind == "write" else 0) for e in found if e.kind in ("write", "sync")]
            (front, front_array), (back, back_array) = (gpt.places(128 * size, size, f) for f in (True, False))
            block = 128 * (slot - 1) // size * size
            want = [pair for place in (back_array + block, back, front_array + block, front) for pair in (("write", place), ("sync", 0))]
            b.equal(f"{words[0]} at {size}: the order of its stores", came[:8], want)
            b.true(f"{words[0]} at {size}: no other writes", all(k == "sync" for k, _ in came[8:]), came)
            b.true(f"{words[0]} at {size}: whole blocks", all(e.length == size for e in found if e.kind == "write"), found)


def cut_apply(b):
    """Cut after each write, what the check advises and another apply end as planned; and no new byte of a map ever stands under its old date."""
    apply.set_up(b)
    old_map = b"old map " * 110
    whole = apply.planned(bytes(4 << 20))
    for what, image in (("zeros", bytes(4 << 20)), ("old maps", gpt.stored(whole, 2048 * 512, gpt.label(2026, 4, 30, 3, 12) + old_map))):
        b.store("a.img", image)
        found, done = straced.events(b, ("apply", "plans/plan", "a.img"), "a.img")
        steps = list(straced.prefixes(image, found))
        b.true(f"apply onto {what} under strace: the writes seen are the writes done", done.status == 0 and steps[-1] == b.bytes("a.img") == apply.planned(image), f"{done} {len(steps)}")
        for count, step in enumerate(steps):
            b.store("a.img", step)
            ground = step[2048 * 512:2048 * 512 + 13 + 880]
            dated = {gpt.label(2026, 4, 30, 3, 12): old_map, gpt.label(2026, 5, 1, 3, 12): apply.MAP1}.get(ground[:13])
            b.true(f"apply onto {what}, cut after {count} writes: under a date stand its own bytes", dated is None or ground[13:] == dated)
            advised(b, 512)
            done = b.run("apply", "plans/plan", "a.img")
            b.equal(f"apply onto {what}, cut after {count} writes, applied again: status", done.status, 0)
            wrong = sorted({i // 512 for i, (x, y) in enumerate(zip(b.bytes("a.img"), apply.planned(image))) if x != y}) if b.bytes("a.img") != apply.planned(image) else []
            b.equal(f"apply onto {what}, cut after {count} writes, applied again: blocks that are not as planned", wrong, [])


def run(b):
    if straced.missing():
        return b.not_run("cuts of grow, lay, repair and apply after each write, and the order of the stores", straced.missing())
    cut_grow(b)
    cut_lay(b)
    cut_repair(b)
    cut_apply(b)
    payloads(b)
    order(b)
