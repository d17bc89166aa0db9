"""Cards that the command laid and changed, before sgdisk, sfdisk and parted: each reads the same partitions and finds no problem. And cards that they made."""
import json
import subprocess

import gpt
from bench import tool


def said(b, *words, env=None):
    done = subprocess.run(words, cwd=b.folder, capture_output=True, text=True, env=b.environment(env), timeout=60)
    return done.returncode, done.stdout + done.stderr


def by_sgdisk(b, what, want):
    code, text = said(b, "sgdisk", "-v", "a.img")
    b.true(f"{what}: sgdisk -v finds no problem", code == 0 and "No problems found" in text, text)
    lines = [line.split() for line in said(b, "sgdisk", "-p", "a.img")[1].splitlines()]
    b.equal(f"{what}: sgdisk -p", [tuple(map(int, w[:3])) for w in lines if w and w[0].isdigit()], [(s, e.first, e.last) for s, e in want.items()])
    for slot, e in want.items():
        text = said(b, "sgdisk", "-i", str(slot), "a.img")[1]
        b.true(f"{what}: sgdisk -i {slot}", e.guid.upper() in text and f"Partition name: '{e.name}'" in text and e.type.upper() in text and f"{e.flags:016X}" in text, text)


def by_sfdisk(b, what, want):
    code, text = said(b, "sfdisk", "--verify", "a.img")
    b.true(f"{what}: sfdisk --verify finds no errors", code == 0 and "No errors detected" in text, text)
    text = said(b, "sfdisk", "-J", "a.img")[1]
    parts = json.loads(text)["partitiontable"].get("partitions", [])
    came = [(p["start"], p["size"], p["type"].lower(), p["uuid"].lower(), p.get("name", "")) for p in parts]
    b.equal(f"{what}: sfdisk -J", came, [(e.first, e.last - e.first + 1, e.type, e.guid, e.name) for e in want.values()])


def by_parted(b, what, want, size):
    code, text = said(b, "parted", "-s", "-m", "a.img", "unit", "s", "print", env={"PARTED_SECTOR_SIZE": str(size)})
    rows = [line.rstrip(";").split(":") for line in text.splitlines()[2:]]
    came = [(int(r[0]), int(r[1].rstrip("s")), int(r[2].rstrip("s")), r[5]) for r in rows if len(r) > 5]
    b.equal(f"{what}: parted", (code, sorted(came)), (0, [(s, e.first, e.last, e.name) for s, e in want.items()]))


def by_all(b, what, want, size=512):
    b.true(f"{what}: our bytes", gpt.slots(b.bytes("a.img"), size) == want)
    if size == 512 and tool("sgdisk"):
        by_sgdisk(b, what, want)
    if size == 512 and tool("sfdisk"):
        by_sfdisk(b, what, want)
    if tool("parted"):
        by_parted(b, what, want, size)


def ours(b, size):
    """A card is laid, gets slots, loses one, grows; the tools look at it after each."""
    want = {}
    b.remove("a.img")
    b.run("lay", "a.img", "--size", 4096 * size, "--guid", gpt.DISK, "-b", size)
    by_all(b, f"laid at {size}", want, size)
    for slot, first, last, name, kind, flags in ((1, 2048, 2999, "north ridge", "data", 0), (2, 34, 34, "roads", "linux", 1 << 60), (128, 4000, 4050, "end", "efi", 4), (3, 3000, 3001, "swap", "swap", 0)):
        attrs = {1 << 60: ("--attrs", "60"), 4: ("--attrs", "LegacyBIOSBootable")}.get(flags, ())
        b.run("put", "a.img", slot, "--first", first, "--last", last, "--name", name, "--type", kind, "--guid", gpt.guid(slot), "-b", size, *attrs)
        want[slot] = gpt.Entry(first, last, name, gpt.guid(slot), gpt.TYPES[kind], flags)
    want = dict(sorted(want.items()))
    by_all(b, f"put at {size}", want, size)
    b.run("clear", "a.img", "2", "-b", size)
    del want[2]
    by_all(b, f"cleared at {size}", want, size)
    with open(b.path("a.img"), "r+b") as f:
        f.truncate(8192 * size)
    b.run("grow", "a.img", "-b", size)
    by_all(b, f"grown at {size}", want, size)


def theirs(b):
    """Cards of the others are checked, listed and changed."""
    b.sparse("a.img", 4096 * 512)
    if tool("sgdisk"):
        said(b, "sgdisk", "-o", "-a", "1", "-n", "1:40:99", "-n", "2:100:200", "-c", "1:north", "a.img")
        b.equal("a card of sgdisk: check", b.run("check", "a.img").status, 0)
        made = gpt.slots(b.bytes("a.img"), 512)
        b.equal("a card of sgdisk: list", gpt.listed(b.run("list", "a.img").out.splitlines()), [gpt.row(s, e, 512) for s, e in made.items()])
        b.run("clear", "a.img", "1")
        by_all(b, "a card of sgdisk, slot 1 cleared", {2: made[2]})
    if tool("parted"):
        for words in (("mklabel", "gpt"), ("mkpart", "a", "40s", "99s"), ("mkpart", "b", "100s", "200s")):
            said(b, "parted", "-s", "-a", "none", "a.img", *words)
        b.equal("a card of parted: check", b.run("check", "a.img").status, 0)
        b.run("put", "a.img", "9", "--first", "300", "--last", "310", "--guid", gpt.guid(9), "--name", "ours")
        made = gpt.slots(b.bytes("a.img"), 512)
        b.equal("a card of parted: the put", made.get(9), gpt.Entry(300, 310, "ours", gpt.guid(9)))
        by_all(b, "a card of parted, slot 9 put", made)


def run(b):
    for name in ("sgdisk", "sfdisk", "parted"):
        if not tool(name):
            b.not_run(f"beside {name}", "it is not there")
    if not any(map(tool, ("sgdisk", "sfdisk", "parted"))):
        return
    ours(b, 512)
    ours(b, 4096)
    theirs(b)
