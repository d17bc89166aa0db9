"""apply: a plan brought onto one card and onto several, brought on again, plans that are wrong, and an sfdisk dump as a plan."""
import os
import re
import subprocess
import time

import gpt
from bench import like, tool

MAP1, MAP2 = b"north ridge, sheet one" * 40, bytes(range(256)) * 3
ENTRIES = {1: gpt.Entry(2048, 4095, "north ridge", gpt.guid(1)), 2: gpt.Entry(4096, 4097, "roads, all", gpt.guid(2), gpt.TYPES["linux"]), 9: gpt.Entry(5000, 5002, "notes", gpt.guid(9), flags=1 | 1 << 48)}
PLAN = f"""# a sheet of the north
label: gpt
label-id: {gpt.DISK}
unit: sectors

1: start=2048, size=2048, uuid={gpt.guid(1)}, name="north ridge", file=maps/one.map, date=2026-05-01, style=3, sheet=12
2: start=4096, size=1K, type=linux, uuid={gpt.guid(2).upper()}, name="roads, all", file="maps/two.map"
9: start=5000, size=1025B, type={gpt.TYPES["data"].upper()}, uuid={gpt.guid(9)}, name=notes, attrs="RequiredPartition GUID:48", date=2026-05-01, style=3, sheet=13
"""
DONE = "done: 3 slots, {} changed; one date: 2026-05-01, style 3"


def planned(image):
    """The image as the plan wants it."""
    image = gpt.over(image, 512, ENTRIES)
    image = gpt.stored(image, 2048 * 512, gpt.label(2026, 5, 1, 3, 12) + MAP1)
    return gpt.stored(gpt.stored(image, 4096 * 512, MAP2), 5000 * 512, gpt.label(2026, 5, 1, 3, 13))


def set_up(b):
    os.makedirs(b.path("plans/maps"), exist_ok=True)
    b.store("plans/maps/one.map", MAP1)
    b.store("plans/maps/two.map", MAP2)
    b.store("plans/plan", PLAN.encode())


def slot_lines(done, file):
    """The lines of one card's slots, and its last line."""
    lines = [line[len(file) + 2:] for line in (done.out + done.err).replace("\ncard: ", "\n").splitlines() if line.startswith(f"{file}: ")]
    return [line for line in lines if line.startswith("slot ")], lines[-1] if lines else None


def once_and_again(b):
    for start, size in (("zeros", ()), ("no file", ("--size", "4M")), ("a card", ())):
        b.remove("a.img")
        image = bytes(4 << 20)
        if start != "no file":
            image = gpt.card(8192, entries={1: gpt.Entry(40, 50, "old", gpt.guid(77))}) if start == "a card" else image
            b.store("a.img", image)
        done = b.run("apply", "plans/plan", "a.img", *size)
        b.equal(f"apply onto {start}: status", (done.status, done.err), (0, ""))
        slots, last = slot_lines(done, "a.img")
        want = ["slot 1: put, written, labelled, verified", "slot 2: put, written, verified", "slot 9: put, labelled, verified"]
        b.equal(f"apply onto {start}: the slots", slots, want)
        b.equal(f"apply onto {start}: the last line", (last, done.out.splitlines()[-1:]), (DONE.format(3), [f"a.img: {DONE.format(3)}"]))
        b.true(f"apply onto {start}: the bytes", b.bytes("a.img") == planned(image))
        old, when = b.bytes("a.img"), os.stat(b.path("a.img")).st_mtime_ns
        done = b.run("apply", "plans/plan", "a.img", *size)
        b.equal(f"apply again onto {start}", (done.status, *slot_lines(done, "a.img")), (0, [f"slot {s}: as planned" for s in (1, 2, 9)], DONE.format(0)))
        b.true(f"apply again onto {start}: no byte changes", b.bytes("a.img") == old)
        b.equal(f"apply again onto {start}: the file is not written", os.stat(b.path("a.img")).st_mtime_ns, when)


def changes(b):
    """What is not as planned is mended, and nothing else is done."""
    whole = planned(bytes(4 << 20))
    other = gpt.over(whole, 512, {**ENTRIES, 9: gpt.Entry(5000, 5002, "other", gpt.guid(9))})
    for what, image, slot, verbs in (("a byte of a map", gpt.stored(whole, 4096 * 512 + 100, b"??"), 2, "written, verified"), ("a date", gpt.stored(whole, 5000 * 512, gpt.label(2026, 4, 30, 3, 13)), 9, "labelled, verified"),
                                     ("a name", other, 9, like("slot 9: put{..}")), ("a byte behind the label", gpt.stored(whole, 2048 * 512 + 13, b"?"), 1, like("slot 1: written{..}, verified"))):
        b.store("a.img", image)
        done = b.run("apply", "plans/plan", "a.img")
        slots, last = slot_lines(done, "a.img")
        came = {line.split(":")[0]: line for line in slots}
        b.equal(f"apply with {what} changed: status", done.status, 0)
        b.equal(f"apply with {what} changed: slot {slot}", came.pop(f"slot {slot}", None), verbs if not isinstance(verbs, str) else f"slot {slot}: {verbs}")
        b.equal(f"apply with {what} changed: the others", sorted(came.values()), [f"slot {s}: as planned" for s in (1, 2, 9) if s != slot])
        b.equal(f"apply with {what} changed: the last line", last, DONE.format(1))
        b.true(f"apply with {what} changed: the bytes", b.bytes("a.img") == whole)
    b.store("a.img", gpt.card(8192, entries={7: gpt.Entry(40, 50, "old", gpt.guid(77)), **ENTRIES}))
    done = b.run("apply", "plans/plan", "a.img")
    b.true("a slot that the plan does not name is said", 'a.img: slot 7 "old" is not in the plan and stays\n' in done.out, done)
    b.equal("and stays", gpt.slots(b.bytes("a.img"), 512).get(7), gpt.Entry(40, 50, "old", gpt.guid(77)))


def several(b):
    """Cards that fail among others: the others are done, and the status says which kind failed."""
    blank, full = bytes(4 << 20), gpt.card(8192, entries={3: gpt.Entry(2000, 2100, "in the way", gpt.guid(3))})
    b.store("a.img", blank)
    b.store("b.img", full)
    b.store("c.img", blank)
    done = b.run("apply", "plans/plan", "a.img", "b.img", "c.img")
    b.equal("apply onto three cards: status", done.status, 1)
    b.equal("apply onto three cards: last line", done.out.splitlines()[-1:], ["2 cards done, 1 failed"])
    b.equal("apply onto three cards: the one in the middle", slot_lines(done, "b.img")[1], like('failed: {..}blocks 2048 to 4095 overlap slot 3 "in the way" (2000 to 2100){..} [22]'))
    for name in ("a.img", "c.img"):
        b.equal(f"apply onto three cards: {name}", slot_lines(done, name)[1], DONE.format(3))
        b.true(f"apply onto three cards: {name}: the bytes", b.bytes(name) == planned(blank))
    b.equal("apply onto two cards again", b.run("apply", "plans/plan", "a.img", "c.img").out.splitlines()[-1:], ["2 cards done, 0 failed"])
    os.makedirs(b.path("folder"), exist_ok=True)
    b.store("c.img", blank)
    done = b.run("apply", "plans/plan", "folder", "b.img", "c.img")
    b.equal("apply with a folder among cards: status", done.status, 3)
    b.equal("apply with a folder among cards: last line", "".join(done.out.splitlines()[-1:]), like("1 card{..} done, 2 failed"))
    b.equal("apply with a folder among cards: it", slot_lines(done, "folder")[1], like("failed: {..}directory{..}"))
    b.true("apply with a folder among cards: the last one", b.bytes("c.img") == planned(blank))
    b.store("a.img", gpt.card(8192, disk=gpt.guid(0x55)))
    old = b.bytes("a.img")
    done = b.run("apply", "plans/plan", "a.img")
    b.equal("another label-id on a whole card: status", done.status, 1)
    b.equal("another label-id on a whole card: last line", slot_lines(done, "a.img")[1], like("failed: {..}"))
    b.true("another label-id: no byte changes", b.bytes("a.img") == old)


def wrong_plans(b):
    """A plan that cannot be read as a plan: status 2, and no card is touched, not even made."""
    good = "1: start=2048, size=10\n"
    wrong = ("nosuch: 1\n", "1 start=2048\n", "1: start\n", "1: nosuch=5\n", "1: start=x, size=10\n", "1: start=2048, size=10, type=nosuch\n", "1: start=2048, size=10, uuid=5\n", "label: dos\n", "sector-size: 1000\n",
             "unit: bytes\n", "label-id: x\n", good + good, "1: start=2048, size=10, date=2026-05-01\n", "1: start=2048, size=10, date=2026-05-01, style=3\n", '1: start=2048, size=10, name="open\n',
             "1: start=2048, size=10, attrs=Nosuch\n", f"1: start=2048, size=10, name={'x' * 37}\n", "1: start=2048, size=10, date=may, style=3, sheet=1\n", "\xff\xfe\n")
    for text in wrong:
        b.store("plans/wrong", ("label: gpt\n" + text).encode("latin-1"))
        b.store("a.img", gpt.card(8192))
        b.remove("new.img")
        b.refuses(("apply", "plans/wrong", "a.img", "new.img", "--size", "4M"), like("card: {..}\n"), 2)
        b.true(f"a plan with {text!r} makes no file", not os.path.exists(b.path("new.img")))
    b.refuses(("apply", "plans/none", "a.img"), "card: plans/none: No such file or directory", 3)
    b.store("plans/plan2", b"label: gpt\n1: start=2048, size=10, file=maps/none.map\n")
    done = b.run("apply", "plans/plan2", "a.img")
    b.equal("a plan with a map that is not there: status", done.status, 3)
    b.true("a plan with a map that is not there: its name", "maps/none.map: No such file or directory" in done.out + done.err, done)


def failed_words(b):
    """A card that fails in the middle: `Nothing was changed.` is said where it is so. The same card twice is no lock on itself."""
    full = gpt.card(8192, entries={7: gpt.Entry(5000, 5010, "in the way", gpt.guid(7))})
    for what, text in (("a second slot over another", "1: start=2048, size=10\n2: start=5005, size=10\n"), ("a second slot without a type", f"1: start=2048, size=10\n2: start=3000, size=1, type={'0' * 8}-0000-0000-0000-{'0' * 12}\n"),
                       ("a second slot outside", "1: start=2048, size=10\n2: start=8150, size=100\n"), ("a map that is too long", "1: start=2048, size=1, file=maps/one.map\n"),
                       ("no date", "1: start=2048, size=10, date=2026-13-01, style=3, sheet=1\n"), ("two dates", "1: start=2048, size=1, date=2026-05-01, style=3, sheet=1\n2: start=2050, size=1, date=2026-05-02, style=3, sheet=1\n")):
        b.store("plans/half", ("label: gpt\n" + text).encode())
        b.store("a.img", full)
        done = b.run("apply", "plans/half", "a.img")
        last = slot_lines(done, "a.img")[1]
        b.equal(f"apply with {what}: status", done.status, 1)
        b.equal(f"apply with {what}: words", last, like("failed: {..} [{n}]"))
        same = b.bytes("a.img") == full
        b.true(f"apply with {what}: the words of no change, by whether a byte changed", same or "Nothing was changed" not in done.out + done.err, done.out + done.err)
        b.equal(f"apply with {what}: check", b.run("check", "a.img").status, 0)
    b.store("a.img", bytes(4 << 20))
    b.store("plans/crlf", PLAN.replace("\n", "\r\n").encode())
    done = b.run("apply", "plans/crlf", "a.img", "a.img")
    b.equal("apply of a plan with CR LF, onto one card twice", (done.status, done.out.splitlines()[-1:]), (0, ["2 cards done, 0 failed"]))
    b.true("apply of a plan with CR LF: the bytes", b.bytes("a.img") == planned(bytes(4 << 20)))


def places(b):
    """at= with and without a label, and lines that leave much out; a second run changes no byte."""
    text = """label: gpt
1: start=2048, size=4, file=maps/two.map, at=100, date=2026-05-01, style=3, sheet=1
2: start=2060, size=4, file=maps/two.map, at=7
3: size=1K
4: start=3000, size=513B
"""
    b.store("plans/places", text.encode())
    b.store("a.img", gpt.card(8192))
    done = b.run("apply", "plans/places", "a.img")
    b.equal("apply with at=: status", (done.status, slot_lines(done, "a.img")[1]), (0, "done: 4 slots, 4 changed; one date: 2026-05-01, style 3"))
    came = b.bytes("a.img")
    made = gpt.slots(came, 512)
    want = gpt.stored(gpt.card(8192, entries=made), 2048 * 512, gpt.label(2026, 5, 1, 3, 1))
    want = gpt.stored(gpt.stored(want, 2048 * 512 + 100, MAP2), 2060 * 512 + 7, MAP2)
    b.true("apply with at=: the bytes", came == want)
    b.equal("apply with at=: the blocks", {s: (e.first, e.last, e.type) for s, e in made.items()},
            {1: (2048, 2051, gpt.TYPES["data"]), 2: (2060, 2063, gpt.TYPES["data"]), 3: (4096, 4097, gpt.TYPES["data"]), 4: (3000, 3001, gpt.TYPES["data"])})
    done = b.run("apply", "plans/places", "a.img")
    b.equal("apply with at= again", (done.status, slot_lines(done, "a.img")), (0, ([f"slot {s}: as planned" for s in (1, 2, 3, 4)], "done: 4 slots, 0 changed; one date: 2026-05-01, style 3")))
    b.true("apply with at= again: no byte changes", b.bytes("a.img") == came)
    b.store("a.img", bytes(4 << 20))
    b.store("plans/nolabel", b"1: start=2048, size=4\n")
    old = b.bytes("a.img")
    done = b.run("apply", "plans/nolabel", "a.img")
    b.equal("a plan without label: gpt lays no card", (done.status, b.bytes("a.img") == old), (1, True))


def names_of_dumps(b):
    """sfdisk writes quotes, and all that is not ASCII, as \\x and two digits: a dump's names come back as they were."""
    names = {1: ('a "b" $c', r"a \x22b\x22 \x24c"), 2: ("höhen 高程", r"h\xc3\xb6hen \xe9\xab\x98\xe7\xa8\x8b"), 3: ("x\\y, z=1", r"x\x5cy, z=1")}
    entries = {s: gpt.Entry(2000 + s, 2000 + s, name, gpt.guid(s)) for s, (name, _) in names.items()}
    lines = "".join(f'/dev/sdb{s} : start={2000 + s}, size=1, type={gpt.TYPES["data"].upper()}, uuid={gpt.guid(s).upper()}, name="{text}"\n' for s, (_, text) in names.items())
    b.store("dump", f"label: gpt\nlabel-id: {gpt.DISK}\n\n{lines}".encode())
    b.store("a.img", bytes(4 << 20))
    b.equal("apply of a dump with names in \\x: status", b.run("apply", "dump", "a.img").status, 0)
    came = {s: e.name for s, e in gpt.slots(b.bytes("a.img"), 512).items()}
    b.equal("apply of a dump with names in \\x: the names", came, {s: name for s, (name, _) in names.items()})
    if not tool("sfdisk"):
        return b.not_run("apply of a dump by sfdisk -d with such names", "there is no sfdisk")
    b.store("c.img", gpt.card(8192, entries=entries))
    b.store("dump", subprocess.run(["sfdisk", "-d", "c.img"], cwd=b.folder, capture_output=True).stdout)
    b.store("a.img", bytes(4 << 20))
    b.equal("apply of a dump by sfdisk -d with such names: status", b.run("apply", "dump", "a.img").status, 0)
    b.true("apply of a dump by sfdisk -d with such names: the bytes", b.bytes("a.img") == b.bytes("c.img"))


def killed(b):
    """An apply that is killed at some moment is brought to its end by a repair and another apply."""
    blank = bytes(4 << 20)
    b.store("a.img", blank)
    began = time.monotonic()
    b.run("apply", "plans/plan", "a.img")
    usual = time.monotonic() - began
    for turn in range(max(b.kills // 10, 1)):
        b.store("a.img", blank)
        p = b.start("apply", "plans/plan", "a.img", stdout=subprocess.DEVNULL, stderr=subprocess.DEVNULL)
        time.sleep(b.rng.random() * usual * 1.1)
        p.kill()
        p.wait()
        b.run("repair", "a.img")
        done = b.run("apply", "plans/plan", "a.img")
        b.equal(f"apply killed, then repair and apply ({turn}): status", done.status, 0)
        b.equal(f"apply killed, then repair and apply ({turn}): last line", slot_lines(done, "a.img")[1], like(DONE.format("{n}")))
        b.true(f"apply killed, then repair and apply ({turn}): the bytes", b.bytes("a.img") == planned(blank))


def dumps(b):
    """A dump of sfdisk is a plan; a plan without dates says so."""
    dump = f"""label: gpt
label-id: {gpt.DISK.upper()}
device: /dev/sdb
unit: sectors
first-lba: 34
last-lba: 8158
grain: 1048576
table-length: 128
sector-size: 512

/dev/sdb1 : start=        2048, size=        2048, type={gpt.TYPES["data"].upper()}, uuid={gpt.guid(1).upper()}, name="north ridge"
/dev/sdb2 : start=        4096, size=           2, type={gpt.TYPES["linux"].upper()}, uuid={gpt.guid(2).upper()}, name="roads, all"
/dev/nvme0n1p9 : start=        5000, size=           3, type={gpt.TYPES["data"].upper()}, uuid={gpt.guid(9).upper()}, name="notes", attrs="RequiredPartition GUID:48"
"""
    b.store("dump", dump.encode())
    b.store("a.img", bytes(4 << 20))
    done = b.run("apply", "dump", "a.img")
    slots, last = slot_lines(done, "a.img")
    b.equal("apply of a dump", (done.status, last), (0, "done: 3 slots, 3 changed; no dates"))
    b.true("apply of a dump: the slots", all(re.fullmatch(r"slot (1|2|9): put(, verified)?", line) for line in slots) and len(slots) == 3, slots)
    b.true("apply of a dump: the bytes", b.bytes("a.img") == gpt.card(8192, entries=ENTRIES))
    b.equal("apply of a dump again", slot_lines(b.run("apply", "dump", "a.img"), "a.img"), ([f"slot {s}: as planned" for s in (1, 2, 9)], "done: 3 slots, 0 changed; no dates"))
    b.store("dump", re.sub(r"sector-size: 512", "sector-size: 4096", dump).encode())
    b.store("b.img", bytes(8192 * 4096))
    b.equal("apply of a dump at 4096", b.run("apply", "dump", "b.img").status, 0)
    b.true("apply of a dump at 4096: the bytes", b.bytes("b.img") == gpt.card(8192, 4096, ENTRIES))
    if not tool("sfdisk"):
        return b.not_run("apply of a dump by sfdisk -d", "there is no sfdisk")
    theirs = subprocess.run(["sfdisk", "-d", "a.img"], cwd=b.folder, capture_output=True)
    b.store("dump", theirs.stdout)
    b.store("c.img", bytes(4 << 20))
    b.equal("apply of a dump by sfdisk -d", b.run("apply", "dump", "c.img").status, 0)
    b.true("apply of a dump by sfdisk -d: the bytes", b.bytes("c.img") == b.bytes("a.img"))


def dry(b):
    b.store("a.img", gpt.card(8192))
    old = b.bytes("a.img")
    done = b.run("apply", "plans/plan", "a.img", "--dry-run")
    b.equal("apply --dry-run: status", done.status, 0)
    b.true("apply --dry-run: no byte changes", b.bytes("a.img") == old)
    b.true("apply --dry-run: last line", "dry run: nothing was written" in "".join(done.out.splitlines()[-1:]), done.out)
    b.run("apply", "plans/plan", "a.img")
    new = b.bytes("a.img")
    changed = {i // 512 for i in range(len(new)) if new[i] != old[i]} if len(new) == len(old) else {}
    named = {int(m[1]) for m in re.finditer(r"would write block (\d+) ", done.out)}
    b.equal("apply --dry-run: the blocks of the tables", named, {k for k in changed if k < 34 or k > 8158})
    ranges = [(int(m[1]), int(m[2])) for m in re.finditer(r"would write bytes (\d+) to (\d+) of the file", done.out)]
    b.equal("apply --dry-run: the payload", [k for k in changed if 34 <= k <= 8158 and not any(f < (k + 1) * 512 and k * 512 <= t for f, t in ranges)], [])


def run(b):
    set_up(b)
    once_and_again(b)
    changes(b)
    several(b)
    wrong_plans(b)
    failed_words(b)
    dumps(b)
    places(b)
    names_of_dumps(b)
    killed(b)
    dry(b)
