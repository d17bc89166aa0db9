#!/usr/bin/env python3
"""The wheel that make wheel has written: made again it has the same bytes, its RECORD names every file with the right sum, and unpacked into an empty folder, by pip where it is there, it
works from a folder outside the repository with the library that it brought. The last line says what was tried, or the exit status is 1."""
import base64
import csv
import hashlib
import os
import pathlib
import re
import subprocess
import sys
import tempfile
import zipfile

ROOT = pathlib.Path(__file__).resolve().parent.parent.parent
VERSION = re.search(r"^VERSION = (.*)$", (ROOT / "Makefile").read_text(), re.M)[1]
WHEEL = ROOT / "target" / "wheel" / f"card_table-{VERSION}-py3-none-linux_x86_64.whl"
KEPT = {name: value for name, value in os.environ.items() if name not in ("CARD_LIBRARY", "LD_LIBRARY_PATH", "PYTHONPATH", "VERSION")}

USED = """
import card, os, uuid
with open("field.img", "wb") as file:
    file.truncate(1 << 30)
with card.Card.open("field.img", 512, writable=True) as field:
    field.lay(uuid.UUID(int=5))
    field.put_staged(field.lowest_free(), card.Record(card.BASIC_DATA, uuid.UUID(int=1), 2048, 4095, name="north ridge"))
with card.Card.open("field.img") as field:
    print([(entry.slot, entry.record.name) for entry in field])
print(card.__version__)
print(os.path.dirname(card.__file__))
print([line.split()[-1] for line in open("/proc/self/maps") if "libcard" in line][0])
"""


def fail(what):
    print(f"wheel: {what}")
    sys.exit(1)


def said(*command, cwd, **more):
    """What a command prints; it must succeed."""
    done = subprocess.run([sys.executable, *map(str, command)], cwd=cwd, env={**KEPT, **more}, capture_output=True, text=True)
    if done.returncode:
        fail(f"{' '.join(map(str, command))} fails\n{done.stdout}{done.stderr}")
    return done.stdout


def recorded(wheel):
    """Each file of the wheel stands in its RECORD, once, with its length and its sum; RECORD itself without them."""
    with zipfile.ZipFile(wheel) as packed:
        own = f"card_table-{VERSION}.dist-info/RECORD"
        rows = list(csv.reader(packed.read(own).decode().splitlines()))
        if sorted(name for name, _, _ in rows) != sorted(packed.namelist()):
            fail("RECORD does not name the files of the wheel")
        for name, total, length in rows:
            data = packed.read(name)
            want = ("", "") if name == own else ("sha256=" + base64.urlsafe_b64encode(hashlib.sha256(data).digest()).rstrip(b"=").decode(), str(len(data)))
            if (total, length) != want:
                fail(f"RECORD has another sum or length of {name}")
        return packed.namelist()


def compared(names):
    """The files of the wheel are those of the repository."""
    here = {f"card/{path.name}": path for path in (ROOT / "hosts" / "python" / "card").iterdir() if path.name != "__pycache__"}
    here["card/libcard.so.0"] = ROOT / "target" / "lib" / "libcard.so.0"
    here.update({f"card_table-{VERSION}.dist-info/licenses/{name}": ROOT / name for name in ("LICENSE", "NOTICE")})
    made = {f"card_table-{VERSION}.dist-info/{name}" for name in ("METADATA", "WHEEL", "RECORD")}
    if set(names) != set(here) | made:
        fail(f"the wheel has other files: {sorted(set(names) ^ (set(here) | made))}")
    with zipfile.ZipFile(WHEEL) as packed:
        for name, path in here.items():
            if packed.read(name) != path.read_bytes():
                fail(f"{name} is not the repository's")
        if f"\nVersion: {VERSION}\n" not in packed.read(f"card_table-{VERSION}.dist-info/METADATA").decode():
            fail("METADATA has another version")


def has_pip():
    return subprocess.run([sys.executable, "-m", "pip", "--version"], env=KEPT, capture_output=True).returncode == 0


def installed(there, pip):
    """The wheel in an empty folder."""
    folder = there / "site"
    if pip:
        said("-m", "pip", "-q", "install", "--no-index", "--no-deps", "--no-compile", "--disable-pip-version-check", "--target", folder, WHEEL, cwd=there)
    else:
        with zipfile.ZipFile(WHEEL) as packed:
            packed.extractall(folder)
    return folder


def used(there, folder):
    """What stands in the folder works from there, and brought its library."""
    more = {"PYTHONPATH": str(folder), "PYTHONDONTWRITEBYTECODE": "1"}
    want = f"[(1, 'north ridge')]\n{VERSION}\n{folder}/card\n{folder}/card/libcard.so.0\n"
    found = said("-c", USED, cwd=there, **more)
    if found != want:
        fail(f"used from {folder} it said\n{found}and not\n{want}")
    examples = said("-m", "card", cwd=there, **more)
    if not re.fullmatch(r"card: [1-9]\d* examples, 0 failed\n", examples):
        fail(f"the examples said {examples}")
    return examples.split(",")[0].split(": ")[1]


def main():
    with tempfile.TemporaryDirectory() as name:
        there = pathlib.Path(name).resolve()
        said(ROOT / "hosts" / "python" / "card_wheel.py", there / "again", cwd=there, VERSION=VERSION)
        if (there / "again" / WHEEL.name).read_bytes() != WHEEL.read_bytes():
            fail("made again it has other bytes")
        names = recorded(WHEEL)
        compared(names)
        pip = has_pip()
        examples = used(there, installed(there, pip))
        if pip:
            said("-m", "pip", "-q", "wheel", "--no-index", "--no-deps", "--disable-pip-version-check", "-w", there / "built", ROOT / "hosts" / "python", cwd=there)
            if (there / "built" / WHEEL.name).read_bytes() != WHEEL.read_bytes():
                fail("built by pip it has other bytes")
    how = "installed and built again by pip" if pip else "unpacked without pip, which is not here"
    print(f"wheel: {len(names)} files with their sums, {how}, {examples} and a card of 1 GiB outside the repository")


if __name__ == "__main__":
    main()
