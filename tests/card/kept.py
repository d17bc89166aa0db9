"""What must not be lost: a card that is there is not laid over, an older back table does not come back, a plan that cannot be carried out changes nothing, and no map stands under another map's date."""
import os
import struct
import subprocess
import time

import gpt
import straced
from bench import like

ONE = {1: gpt.Entry(2048, 4095, "last year", gpt.guid(1))}
MAPS = {1: gpt.Entry(2048, 6143, "map", gpt.guid(1))}


def labelled(year, body):
    """A map with a label of its own."""
    return b"FBM" + struct.pack("<HHBBHH", 1, year, 5, 1, 3, 1) + body


def laid_over(b):
    """Whatever shows used slots is refused without --force, and a read that fails is no verdict."""
    drops = "{..}, and laying drops them. Nothing was changed. To lay it anew: card lay --force a.img\n"
    b.store("a.img", gpt.card(2048, 4096, {3: gpt.Entry(600, 700, "x", gpt.guid(3))}))
    b.refuses(("lay", "a.img"), like("card: a.img is a card with blocks of 4096 bytes and 1 used slot" + drops))
    b.store("a.img", gpt.card(8192, entries=ONE) + bytes(1 << 20))
    b.refuses(("lay", "a.img"), like("card: a.img is a card of fewer blocks with 1 used slot" + drops))
    if straced.missing():
        return b.not_run("lay and apply where a read fails", straced.missing())
    b.store("plan", b"label: gpt\n1: size=64K\n")
    for count in range(1, 6):
        for words, size, image in ((("lay", "a.img"), 512, gpt.card(8192, entries=ONE)), (("apply", "plan", "a.img"), 4096, gpt.card(2048, 4096, {3: gpt.Entry(600, 700, "x", gpt.guid(3))}))):
            b.store("a.img", image)
            done = b.run(*words, before=straced.injected(b.path("a.img"), "pread64", f"error=EIO:when={count}"))
            b.true(f"{words[0]} with EIO at read {count}, card of {size}: refused or failed, and no byte changes", done.status in (1, 3) and b.bytes("a.img") == image, done)


def older_back(b):
    """An image that was copied onto a longer card: the check says grow, repair does not bring the older slots back, and grow keeps the new ones."""
    old, new = gpt.card(16384, entries=ONE), gpt.card(8192, entries={1: gpt.Entry(2048, 2050, "new", gpt.guid(7))})
    b.store("a.img", new + old[len(new):])
    b.says(("check", "a.img"), err=like("card: a.img: front table: it is not laid out as a card's; it is laid for 8192 blocks, and the file has 16384: card grow a.img [16]\n"), status=1)
    b.refuses(("repair", "a.img"), like("card: a.img not repaired: its front table is that of a card of 8192 blocks with other slots than the back one's. Nothing was changed. {..}\n"))
    b.says(("grow", "a.img"), out=like("card grown from 8192 to 16384 blocks{..}\n"))
    b.equal("grow over an older back table: the list", gpt.listed(b.run("list", "a.img").out.splitlines()), [gpt.row(1, gpt.Entry(2048, 2050, "new", gpt.guid(7)), 512)])


def plans(b):
    """A plan of which one line is refused changes no byte, and none is left of a file that was made for it."""
    b.store("long.map", b"x" * 70000)
    b.store("short.map", b"y" * 100)
    lines = {"too long": b"3: size=64K, file=long.map\n", "no date": b"3: size=64K, date=2026-13-01, style=1, sheet=1\n", "no room": b"3: size=1G\n", "no slot": b"200: size=64K\n"}
    for what, line in lines.items():
        b.store("plan", b"label: gpt\n1: size=64K, file=short.map, date=2026-05-01, style=1, sheet=1\n" + line)
        for image in (gpt.card(8192, entries={9: gpt.Entry(5000, 5010, "stays", gpt.guid(9))}), bytes(1 << 20)):
            b.store("a.img", image)
            done = b.run("apply", "plan", "a.img")
            b.true(f"apply, one line {what}: refused, and no byte changes", done.status == 1 and b.bytes("a.img") == image and "Nothing was changed." in done.out, done)
        b.remove("new.img")
        done = b.run("apply", "plan", "new.img", "--size", "1M")
        b.true(f"apply onto no file, one line {what}: no file is left", done.status == 1 and not os.path.exists(b.path("new.img")), done)
    b.remove("new.img")
    b.true("apply -b 1000 onto no file: no file is left", b.run("apply", "plan", "new.img", "--size", "1M", "-b", "1000").status == 2 and not os.path.exists(b.path("new.img")))


def own_labels(b):
    """Maps with labels of their own are judged with the plan's."""
    b.store("own.map", labelled(2019, b"body"))
    b.store("plain.map", b"body")
    for own, said in ((2019, "not one date"), (2026, "one date")):
        b.store("own.map", labelled(own, b"body"))
        b.store("plan", b"label: gpt\n1: size=64K, file=plain.map, date=2026-05-01, style=3, sheet=1\n2: size=64K, file=own.map\n")
        b.store("a.img", bytes(4 << 20))
        done = b.run("apply", "plan", "a.img")
        b.true(f"apply of a plan's date 2026 and a map's own of {own}: {said}", said in done.out and done.status == (1 if own == 2019 else 0), done)


def shorter_map(b):
    """That a longer map was there before is said."""
    b.store("map", b"15 Nov: no ")
    b.store("plan", b"1: start=2048, size=4096, name=map, file=map\n")
    b.store("a.img", gpt.stored(gpt.card(8192, entries=MAPS), 2048 * 512, b"road open, checked 14 Nov"))
    done = b.run("apply", "plan", "a.img")
    b.true("apply of a shorter map: the older bytes are said", done.status == 0 and "other bytes stand behind the map's last one" in done.out, done)


def dates_in_cuts(b):
    """Cut after each write, a slot has no label, or bytes that belong to it: by apply, by write, with the plan's label and with the map's own."""
    if straced.missing():
        return b.not_run("cuts of maps with labels", straced.missing())
    old, new = labelled(2025, b"O" * 2000000), labelled(2026, b"N" * 2000000)
    image = gpt.stored(gpt.card(8192, entries=MAPS), 2048 * 512, old)
    b.store("own.map", new)
    b.store("plain.map", b"N" * 2000000)
    b.store("own", b"1: start=2048, size=4096, name=south, file=own.map\n")
    b.store("given", b"1: start=2048, size=4096, name=south, file=plain.map, date=2026-05-01, style=3, sheet=1\n")
    for words in (("write", "a.img", "1", "own.map"), ("apply", "own", "a.img"), ("apply", "given", "a.img")):
        b.store("a.img", image)
        found, done = straced.events(b, words, "a.img")
        steps = list(straced.prefixes(image, found))
        b.true(f"{words} under strace: the writes seen are the writes done", done.status == 0 and steps[-1] == b.bytes("a.img") and len(steps) > 3, f"{done.status} {done.err} {len(steps)}")
        for count, step in enumerate(steps):
            at = 2048 * 512
            label, body = step[at:at + 13], step[at + 13:at + 2000013]
            year = struct.unpack_from("<H", label, 5)[0] if label[:3] == b"FBM" else None
            whole = {2025: b"O" * 2000000, 2026: b"N" * 2000000, None: body}[year]
            b.true(f"{words}, cut after {count} writes: no map stands under another map's date", body == whole, year)


def labels_refused(b):
    """A label is written over whatever is there, but not into a slot that is none; a read that fails is no verdict."""
    b.store("a.img", gpt.card(8192, entries=MAPS))
    b.refuses(("label", "a.img", "200", "--date", "2026-05-01"), like("card: slot 200 not labelled: there is no slot 200: {..} Nothing was changed. [18]\n"))
    b.refuses(("label", "a.img", "5", "--date", "2026-05-01"), like("card: slot 5 not labelled: slot 5 is not used. Nothing was changed. [23]\n"))
    b.refuses(("label", "a.img", "1", "--date", "2026-05-01"), like("card: slot 1 has no label yet: {..}; see: card help label\n"), status=2)
    if not straced.missing():
        done = b.run("label", "a.img", "1", "--date", "2026-05-01", before=straced.injected(b.path("a.img"), "pread64", "error=EIO:when=3"))
        b.equal("label where the read of the label fails: status", done.status, 3)


def output(b):
    """Cards are made also where nobody reads what is said."""
    b.store("plan", b"label: gpt\n1: size=64K\n")
    reader, writer = os.pipe()
    os.close(reader)
    done = b.run("apply", "plan", "p.img", "q.img", "--size", "1M", stdout=writer)
    os.close(writer)
    b.equal("apply into a pipe that has ended: status", done.status, 3)
    b.equal("apply into a pipe that has ended: both cards are there", [b.run("check", name).status for name in ("p.img", "q.img")], [0, 0])
    done = b.run("lay", "z.img", "--size", "1M", "--dry-run", stdout=open("/dev/full", "wb"))
    b.true("a dry run whose report cannot be written has done nothing", "done, but" not in done.err and done.status == 3, done)


def two_lays(b):
    """Of two commands that make one file, the second finds what the first laid, and removes nothing."""
    if straced.missing():
        return b.not_run("two lays of one file", straced.missing())
    for calls in ("ftruncate", "flock"):
        b.remove("race.img")
        slow = ("strace", "-f", "-qq", "-o", "/dev/null", "-e", f"trace={calls}", "-e", f"inject={calls}:delay_enter=1500000:when=1")
        first = subprocess.Popen([*slow, *b.command("lay", "race.img", "--size", "4M")], cwd=b.folder, stdout=subprocess.DEVNULL, stderr=subprocess.PIPE)
        while not os.path.exists(b.path("race.img")) and first.poll() is None:
            time.sleep(0.01)
        b.run("lay", "race.img", "--size", "4M")
        put = b.run("put", "race.img", "1", "--size", "64K", "--name", "map")
        first.communicate(timeout=60)
        listed = b.run("list", "race.img")
        b.true(f"two lays of one file, the first slow at {calls}: the file is there, and a slot that was put stays", put.status == 0 and '"map"' in listed.out, f"{put} {listed}")


def new_ground(b):
    """A slot that is new, or that comes to ground where a map was: the label of the map before is gone before a byte of the new one is there."""
    if straced.missing():
        return b.not_run("cuts of maps on other ground", straced.missing())
    old = labelled(2025, b"O" * 3000)
    b.store("plain.map", b"N" * 3000)
    line = b"size=2048, name=new, file=plain.map, date=2026-05-01, style=3, sheet=%d\n"
    b.store("new", b"1: start=2048, " + line % 1)
    b.store("moved", b"1: start=6144, " + line % 1 + b"2: start=2048, " + line % 2)
    for plan, entries in (("new", {}), ("moved", {1: gpt.Entry(2048, 4095, "old", gpt.guid(1))})):
        image = gpt.stored(gpt.card(16384, entries=entries), 2048 * 512, old)
        b.store("a.img", image)
        found, done = straced.events(b, ("apply", plan, "a.img"), "a.img")
        steps = list(straced.prefixes(image, found))
        b.true(f"apply {plan} under strace: the writes seen are the writes done", done.status == 0 and steps[-1] == b.bytes("a.img") and len(steps) > 5, done)
        for count, step in enumerate(steps):
            at = 2048 * 512
            label, body = step[at:at + 13], step[at + 13:at + 3013]
            year = struct.unpack_from("<H", label, 5)[0] if label[:3] == b"FBM" else None
            b.true(f"apply {plan}, cut after {count} writes: no map stands under another map's date", {2025: b"O" * 3000, 2026: b"N" * 3000, None: body}[year] == body, year)


def pulled_and_longer(b):
    """A card that was pulled in the third stage and then copied onto a longer file is not laid over, and nobody is told to."""
    entries = {1: gpt.Entry(2048, 2060, "m", gpt.guid(1))}
    b.store("a.img", gpt.card(4096, entries=entries))
    b.run("put", "a.img", "2", "--first", "2100", "--last", "2110", "--stop-after", "3")
    with open(b.path("a.img"), "r+b") as f:
        f.truncate(3 << 20)
    b.store("plan", b"label: gpt\n1: size=64K\n")
    b.refuses(("lay", "a.img"), like("card: a.img is a card of fewer blocks with 2 used slots, and laying drops them. {..}\n"))
    b.refuses(("apply", "plan", "a.img"), "card: 1 card not as planned", out=like("a.img: failed: {..}\n"))
    b.refuses(("grow", "a.img"), like("card: a.img not grown: at its 4096 blocks the card was pulled, {..}\n"))
    b.true("check of it does not say lay", "lay it anew" not in b.run("check", "a.img").err)


def larger(b):
    """A slot that is to become larger does so where it is; one that would have to move without a map to write is refused."""
    b.store("map", labelled(2025, b"O" * 3000))
    b.store("a.img", gpt.stored(gpt.card(16384, entries=ONE), 2048 * 512, b.bytes("map")))
    b.store("plan", b'1: size=4096, name="last year"\n')
    done = b.run("apply", "plan", "a.img")
    b.true("apply of a larger size: in place", done.status == 0 and gpt.slots(b.bytes("a.img"), 512)[1].first == 2048, done)
    b.store("a.img", gpt.card(16384, entries={**ONE, 2: gpt.Entry(4096, 4100, "next", gpt.guid(2))}))
    b.refuses(("apply", "plan", "a.img"), "card: 1 card not as planned", out=like("a.img: failed: slot 1 not put: it has no room for 4096 blocks where it is, {..} Nothing was changed.\n"))


def dry_dates(b):
    """A dry run judges as the run does."""
    b.store("plain.map", b"body")
    for own in (2019, 2026):
        b.store("own.map", labelled(own, b"body"))
        b.store("plan", b"label: gpt\n1: size=64K, file=plain.map, date=2026-05-01, style=3, sheet=1\n2: size=64K, file=own.map\n")
        b.store("a.img", bytes(4 << 20))
        dry = b.run("apply", "plan", "a.img", "--dry-run")
        real = b.run("apply", "plan", "a.img")
        again = b.run("apply", "plan", "a.img", "--dry-run")
        b.equal(f"apply of two dates, {own}: statuses of the dry run, the run, and a dry run after it", (dry.status, real.status, again.status), (1, 1, 1) if own == 2019 else (0, 0, 0))


def odd_sources(b):
    """What says that it is empty and has bytes, or has no end, is refused before anything is written."""
    image = gpt.stored(gpt.card(8192, entries=MAPS), 2048 * 512, labelled(2025, b"O" * 3000))
    for name in ("/dev/zero", "/proc/version"):
        b.store("a.img", image)
        b.store("plan", b"1: start=2048, size=4096, name=map, file=" + name.encode() + b"\n")
        b.refuses(("apply", "plan", "a.img"), like("card: " + name + "{..}; see: card help apply\n"), status=2)
    done = b.run("write", "a.img", "1", "/proc/version", "--dry-run")
    b.true("write of /proc/version, dry: bytes are named", "would write bytes" in done.out, done)


def run(b):
    for test in (new_ground, pulled_and_longer, larger, dry_dates, odd_sources, two_lays, laid_over, older_back, plans, own_labels, shorter_map, dates_in_cuts, labels_refused, output):
        test(b)
