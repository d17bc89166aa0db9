"""Several commands at once on one file, locks that other programs hold, and commands that are killed at any moment."""
import fcntl
import re
import subprocess
import time

import gpt

ENTRIES = {1: gpt.Entry(34, 37, "map", gpt.guid(1)), 6: gpt.Entry(38, 39, "roads", gpt.guid(6))}
WAITING = "card: waiting for a.img, which another program has locked\n"


def locked(b, kind, words, waits):
    """A command while this program holds a lock: it waits and says so, or goes on at once."""
    b.store("a.img", gpt.card(128, entries=ENTRIES))
    old = b.bytes("a.img")
    with open(b.path("a.img"), "rb") as f:
        fcntl.flock(f, kind)
        p = b.start(*words)
        if waits:
            time.sleep(1.0)
            b.true(f"card {words[0]} waits for a lock", p.poll() is None)
            b.true(f"card {words[0]} changes nothing while it waits", b.bytes("a.img") == old)
            fcntl.flock(f, fcntl.LOCK_UN)
        done = b.ended(p)
    b.equal(f"card {words[0]} beside a lock", (done.status, done.err), (0, WAITING if waits else ""))


def locks(b):
    shared, alone = fcntl.LOCK_SH, fcntl.LOCK_EX
    for words in (("list", "a.img"), ("check", "a.img"), ("show", "a.img"), ("free", "a.img"), ("read", "a.img", "1"), ("uefi", "a.img"), ("report", "a.img")):
        locked(b, shared, words, False)
    locked(b, alone, ("list", "a.img"), True)
    locked(b, alone, ("uefi", "a.img"), True)
    for words in (("put", "a.img", "next", "--size", "1K"), ("clear", "a.img", "6"), ("lay", "a.img", "--force"), ("label", "a.img", "1", "--date", "2026-05-01", "--style", "3", "--sheet", "1")):
        locked(b, shared, words, True)
    locked(b, alone, ("clear", "a.img", "1"), True)


def parallel(b):
    """Many puts of the next slot at once: each has a slot of its own."""
    count = 24
    b.store("a.img", gpt.card(4096))
    running = [b.start("put", "a.img", "next", "--size", "4K", "--name", f"n{i}") for i in range(count)]
    ended = [b.ended(p) for p in running]
    b.equal("puts at once: status", [d.status for d in ended], [0] * count)
    b.true("puts at once: no words but those of waiting", all(d.err in ("", WAITING) for d in ended), [d.err for d in ended])
    said = sorted(int(m[1]) for m in (re.match(r"slot (\d+) put: ", d.out) for d in ended) if m)
    b.equal("puts at once: each has a slot of its own", said, list(range(1, count + 1)))
    made = gpt.slots(b.bytes("a.img"), 512)
    b.equal("puts at once: all are on the card", sorted(e.name for e in made.values()), sorted(f"n{i}" for i in range(count)))
    b.true("puts at once: the bytes are a card's", b.bytes("a.img") == gpt.card(4096, entries=made, disk=gpt.DISK))
    b.equal("puts at once: check", b.run("check", "a.img").status, 0)
    mixed(b)


def mixed(b):
    """Puts, clears and lists at once: every list is one that stood on the card."""
    b.store("a.img", gpt.card(4096))
    running = []
    for i in range(10):
        running.append(b.start("put", "a.img", i + 1, "--first", 100 + i, "--last", 100 + i, "--name", f"n{i}"))
        running.append(b.start("list", "a.img"))
        running.append(b.start("clear", "a.img", i + 1))
    ended = [b.ended(p) for p in running]
    b.equal("puts, clears and lists at once: status", [d.status for d in ended], [0] * len(running))
    b.equal("puts, clears and lists at once: check", b.run("check", "a.img").status, 0)


def took(b):
    """How long a put takes here, from its start to its end."""
    times = []
    for _ in range(5):
        began = time.monotonic()
        b.run("put", "a.img", "100", "--first", "90", "--last", "90")
        times.append(time.monotonic() - began)
    return sorted(times)[2]


def update(b, table):
    """The words of some update, and the table that it leaves."""
    slot = b.rng.randrange(1, 129)
    if slot in table and b.rng.random() < 0.6:
        return ("clear", "a.img", slot), {s: e for s, e in table.items() if s != slot}
    entry = gpt.Entry(33 + slot, 33 + slot, f"map {b.rng.randrange(10**6)}", gpt.guid(slot))
    return ("put", "a.img", slot, "--first", entry.first, "--last", entry.last, "--name", entry.name, "--guid", entry.guid), dict(sorted({**table, slot: entry}.items()))


def killed(b):
    """Updates that are killed at some moment of their run: the old list or the new one, and repair and check accept."""
    table = {s: gpt.Entry(33 + s, 33 + s, f"map {s}", gpt.guid(s)) for s in b.rng.sample(range(1, 129), 20)}
    table = dict(sorted(table.items()))
    b.store("a.img", gpt.card(200, entries={}))
    usual = took(b)
    b.store("a.img", gpt.card(200, entries=table))
    left = {"old": 0, "new": 0, "cut": 0}
    for turn in range(b.kills):
        words, after = update(b, table)
        p = b.start(*words, stdout=subprocess.DEVNULL, stderr=subprocess.DEVNULL)
        time.sleep(b.rng.random() * usual * 1.1)
        p.kill()
        p.wait()
        shown = b.run("show", "a.img")
        rows = gpt.listed(shown.out.splitlines()[1:])
        old, new = ([gpt.row(s, e, 512) for s, e in t.items()] for t in (table, after))
        b.true(f"kill {turn} of card {' '.join(map(str, words))}: the old list or the new one", shown.status == 0 and rows in (old, new), shown)
        left["cut"] += "refuses" in shown.out
        left["new" if rows == new else "old"] += 1
        table = after if rows == new else table
        repaired = b.run("repair", "a.img") if "refuses" in shown.out else None
        whole = b.bytes("a.img") == gpt.card(200, entries=table)
        b.true(f"kill {turn}: repaired, the bytes are a card's with that list", whole and (repaired is None or repaired.status == 0), repaired)
        if repaired or turn % 20 == 0:
            b.equal(f"kill {turn}: check", b.run("check", "a.img").status, 0)
    print(f"card: killed: {b.kills} updates, {left['old']} with the old list, {left['new']} with the new one, {left['cut']} cut between two stores", flush=True)


def run(b):
    locks(b)
    parallel(b)


def run_killed(b):
    killed(b)
