"""The readers of the corpus that are programs: the command card, the Python package, the Rust original and other makers' tools. Each is asked where it is there."""
import json
import os
import pathlib
import re
import shutil
import subprocess
import sys

ROOT = pathlib.Path(__file__).resolve().parents[2]
PATH = os.environ["PATH"] + ":/usr/sbin:/sbin"
CARD = ROOT / "target" / "card" / "card"
ORIGINAL = ROOT / "target" / "beside" / "release" / "list"
# What the Python package says of each file that it is given with a block size: one line of JSON for each.
MODULE = """
import card, json, sys
def told(ask):
    try:
        return f"used {len(ask())}"
    except card.Refused as refused:
        return f"refused {refused.number}"
for path, size in zip(sys.argv[1::2], map(int, sys.argv[2::2])):
    image = bytearray(open(path, "rb").read())
    before = bytes(image)
    def opened():
        with card.Card.open(path, size) as field:
            return list(field.listing())
    tables = [told(lambda: card.uefi_listing(image, size, table)) for table in (card.FRONT, card.BACK)]
    print(json.dumps([told(lambda: card.listing(image, size)), told(opened), "; ".join(tables), image == before]))
"""


def run(*words, **more):
    """A program's exit status, and what it printed to standard output. No program may run on."""
    done = subprocess.run([str(word) for word in words], stdin=subprocess.DEVNULL, capture_output=True, text=True, errors="replace", timeout=120, env=os.environ | {"PATH": PATH, "LC_ALL": "C.UTF-8"} | more)
    return done.returncode, done.stdout


def command(judge, row, path):
    """The command card: list and check by the index, every other reading command by one of its statuses; none changes the file."""
    before = path.read_bytes()
    for name in ("list", "check", "show", "uefi", "free", "report"):
        status, text = run(CARD, name, "-b", row["size"], path)
        wanted = (0 if row["check"] == "0" else 1,) if name in ("list", "check") else (0, 1)
        judge.same(row["name"], f"card {name}'s exit status", status in wanted or status, True)
        if name == "list" and status == 0:
            judge.same(row["name"], "card list", text.splitlines()[-1], f"{row['list']} of 128")
    judge.same(row["name"], "the card command's readers leave the file", path.read_bytes() == before, True)


def module(judge, rows, folder):
    words = [word for row in rows for word in (folder / f"{row['name']}.img", row["size"])]
    status, text = run(sys.executable, "-c", MODULE, *words, PYTHONPATH=str(ROOT / "hosts" / "python"))
    judge.same("all images", "the Python package's exit status", status, 0)
    for row, line in zip(rows, text.splitlines()):
        image, file, tables, same = json.loads(line)
        judge.same(row["name"], "the Python package's listing", image, row["list"])
        judge.same(row["name"], "the Python package's listing of the file", file, row["list"])
        judge.same(row["name"], "the Python package's second edition", tables, row["second"])
        judge.same(row["name"], "the Python package leaves the image", same, True)


def original(judge, row, path):
    """The Rust original reads both tables and lists the front one's slots; it ends with another status where either is refused."""
    status, text = run(ORIGINAL, path)
    front, back = row["first"].split("; ")
    good = front.startswith("used") and front == back
    judge.same(row["name"], "the Rust original", f"used {len(text.splitlines())}" if status == 0 else "refused", front if good else "refused")


def sfdisk(path):
    status, text = run("sfdisk", "-d", path)
    return [(int(n), int(first), int(first) + int(count) - 1) for n, first, count in re.findall(r"\.img(\d+) : start= *(\d+), size= *(\d+)", text)] if status == 0 else []


def sgdisk(path):
    status, text = run("sgdisk", "-p", path)
    return [tuple(map(int, found)) for found in re.findall(r"^ *(\d+) +(\d+) +(\d+) ", text.partition("Number")[2], re.M)] if status == 0 else []


def parted(path):
    status, text = run("parted", "-sm", path, "unit", "s", "print")
    return [tuple(map(int, found)) for found in re.findall(r"^(\d+):(\d+)s:(\d+)s:", text, re.M)] if status == 0 else []


TOOLS = {"sfdisk": sfdisk, "sgdisk": sgdisk, "parted": parted}


def programs(judge, rows, folder, listings):
    """Asks each reader that is there; gives their names. Another maker's tool may show nothing of a card, but no other slots than it has: of whole cards with blocks of 512 bytes."""
    folder, there = pathlib.Path(folder), []
    if CARD.exists():
        there.append("the card command")
        for row in rows:
            command(judge, row, folder / f"{row['name']}.img")
    there.append("the Python package")
    module(judge, rows, folder)
    if ORIGINAL.exists():
        there.append("the Rust original")
        for row in rows:
            if row["size"] == "512":
                original(judge, row, folder / f"{row['name']}.img")
    for name, ask in TOOLS.items():
        shown = 0
        for row in rows if shutil.which(name, path=PATH) else []:
            want = listings[row["name"]]
            if want and row["size"] == "512":
                got = sorted(ask(folder / f"{row['name']}.img"))
                shown += bool(got)
                if got:
                    judge.same(row["name"], name, got, want)
        if shown:
            there.append(f"{name} ({shown} cards)")
    return there
