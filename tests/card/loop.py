"""A loop device: its own block size, the same answers as on a file, and no writing while it, or a partition of it, is mounted."""
import json
import os
import subprocess

import gpt
from bench import like, tool

MIDDLE = {512: 30000, 4096: 7000}


def attached(b, size, *more):
    done = subprocess.run(["losetup", "-f", "--show", "-b", str(size), *more, b.path("a.img")], capture_output=True, text=True)
    return done.stdout.strip() if done.returncode == 0 else None, done.stderr.strip()


def settled(device):
    """Written back, so that the file has what the device was given."""
    with open(device, "rb") as f:
        os.fsync(f.fileno())


def device_card(b, device, size):
    blocks = (32 << 20) // size
    entries = {1: gpt.Entry(2048, MIDDLE[size], "map", gpt.guid(1)), 6: gpt.Entry(MIDDLE[size] + 1, MIDDLE[size] + 2, "roads", gpt.guid(6))}
    first, last = gpt.usable(blocks, size)
    b.says(("lay", device, "--guid", gpt.DISK), f"card laid: {device}: {blocks} blocks of {size} bytes (32 MiB), GUID {gpt.DISK}, usable blocks {first} to {last}\n")
    for slot, e in entries.items():
        b.says(("put", device, slot, "--first", e.first, "--last", e.last, "--name", e.name, "--guid", e.guid),
               f'slot {slot} put: blocks {e.first} to {e.last} ({gpt.words((e.last - e.first + 1) * size)}), type data, GUID {e.guid}, "{e.name}"\n')
    done = b.run("check", device)
    b.equal(f"check {device}", (done.status, done.out.splitlines()[:1]), (0, [f"{device}: whole: {blocks} blocks of {size} bytes (32 MiB), 2 of 128 slots used, GUID {gpt.DISK}"]))
    b.equal(f"list {device}", gpt.listed(b.run("list", device).out.splitlines()), [gpt.row(s, e, size) for s, e in entries.items()])
    found = json.loads(b.run("list", device, "--json").out or "{}").get("partitiontable", {})
    b.equal(f"list {device} --json", (found.get("sectorsize"), [p["node"] for p in found.get("partitions", [])]), (size, [f"{device}p1", f"{device}p6"]))
    b.says(("write", device, "1", "-"), "slot 1: 11 bytes written from place 0, verified\n", stdin=b"north ridge")
    b.equal(f"read {device}", b.run("read", device, "1", "--length", "11").out, "north ridge")
    settled(device)
    image = gpt.card(blocks, size, entries)
    b.true(f"{device} at {size}: the bytes of the file behind it", b.bytes("a.img") == gpt.stored(image, entries[1].first * size, b"north ridge"))
    other = 4608 - size
    b.refuses(("check", device, "-b", other), like(f"card: {device}: front table: {{..}}; a card with blocks of {size} bytes is there: try -b {size} [{{n}}]\n"), files=())
    b.refuses(("lay", device, "--size", "64M"), like(f"card: {device} has 33554432 bytes, not the 67108864 of --size. Nothing was changed.\n"), files=())


def beside_sfdisk(b, device):
    if not tool("sfdisk"):
        return b.not_run("list --json of a device beside sfdisk -J", "there is no sfdisk")
    theirs = json.loads(subprocess.run(["sfdisk", "-J", device], capture_output=True, text=True).stdout or "{}")
    theirs.get("partitiontable", {}).pop("grain", None)
    b.equal(f"list {device} --json beside sfdisk -J", json.loads(b.run("list", device, "--json").out or "{}"), theirs)


def refused_mounted(b, device, place, what):
    """Every writing command is refused while something of the device is mounted, and goes on with --mounted."""
    b.store("src", b"map")
    with open(device, "rb") as f:
        old = f.read(17408)
    line = like(f"card: {device}{{..}} is mounted at {place}. Nothing was changed. Unmount it, or say --mounted\n")
    for words in (("put", device, "next", "--size", "512"), ("clear", device, "6"), ("write", device, "1", "src"), ("label", device, "1", "--date", "2026-05-01", "--style", "3", "--sheet", "1"),
                  ("lay", device, "--force"), ("repair", device), ("grow", device)):
        done = b.run(*words)
        if words[0] in ("repair", "grow") and done.status == 0:
            continue  # nothing to do
        b.equal(f"card {words[0]} of a device, {what} mounted", (done.status, done.out), (1, ""))
        b.equal(f"card {words[0]} of a device, {what} mounted: words", done.err, line)
    with open(device, "rb") as f:
        b.true(f"{what} mounted: the tables are as they were", f.read(17408) == old)
    b.equal(f"list of a device, {what} mounted", b.run("list", device).status, 0)


def mount(b, device, place):
    os.makedirs(place, exist_ok=True)
    return subprocess.run(["mount", device, place], capture_output=True, text=True).returncode == 0


def partition_mounted(b, device):
    """A partition of the device is mounted, if the kernel shows partitions of loop devices."""
    node, place = f"{device}p1", b.path("mnt")
    for words in (("blockdev", "--rereadpt"), ("partx", "-u")):
        if tool(words[0]):
            subprocess.run([*words, device], capture_output=True)
    if not os.path.exists(node):
        return b.not_run("a mounted partition", f"the kernel makes no {node} here")
    subprocess.run(["mkfs.ext4", "-q", "-F", node], capture_output=True)
    if not mount(b, node, place):
        return b.not_run("a mounted partition", f"{node} cannot be mounted")
    try:
        refused_mounted(b, device, place, "a partition")
        b.equal("clear --mounted", b.run("clear", device, "6", "--mounted").status, 0)
    finally:
        subprocess.run(["umount", place])
    b.equal("clear once it is unmounted", b.run("put", device, "6", "--first", "40000", "--last", "40001").status, 0)


def grown(b, size):
    """A device that became longer: grow takes all of it."""
    b.sparse("a.img", 16 << 20)
    device, _ = attached(b, size)
    try:
        b.run("lay", device, "--guid", gpt.DISK)
        entry = gpt.Entry(500, 600, "map", gpt.guid(1))
        b.run("put", device, "1", "--first", "500", "--last", "600", "--name", "map", "--guid", gpt.guid(1))
        os.truncate(b.path("a.img"), 48 << 20)
        subprocess.run(["losetup", "-c", device], check=True)
        old, new = (16 << 20) // size, (48 << 20) // size
        b.refuses(("check", device), f"card: {device}: front table: it is not laid out as a card's; it is laid for {old} blocks, and the file has {new}: card grow {device} [16]", files=())
        b.says(("grow", device), like(f"card grown from {old} to {new} blocks of {size} bytes (48 MiB): 1 slot{{..}} as {{..}}\n"))
        settled(device)
        tables = gpt.tables(new, size, {1: entry})
        b.true(f"grow {device}: the bytes of the tables", all(b.bytes("a.img")[p:p + len(d)] == d for p, d in tables.items()))
    finally:
        subprocess.run(["losetup", "-d", device])


def read_only(b):
    """A device that may be read alone."""
    b.store("a.img", gpt.card(4096, entries={1: gpt.Entry(500, 600, "map", gpt.guid(1))}))
    device, _ = attached(b, 512, "-r")
    try:
        b.equal("check of a read-only device", b.run("check", device).status, 0)
        b.refuses(("clear", device, "1"), like(f"card: {device}: {{..}}\n"), 3)
    finally:
        subprocess.run(["losetup", "-d", device])


def whole_mounted(b):
    """The device itself is mounted: a card whose bytes are a file system's too cannot be, so the file system stands alone."""
    b.sparse("a.img", 32 << 20)
    device, _ = attached(b, 512)
    try:
        subprocess.run(["mkfs.ext4", "-q", "-F", device], capture_output=True)
        if not mount(b, device, b.path("mnt")):
            return b.not_run("a mounted device", f"{device} cannot be mounted")
        try:
            b.refuses(("lay", device), f"card: {device} is mounted at {b.path('mnt')}. Nothing was changed. Unmount it, or say --mounted", files=())
        finally:
            subprocess.run(["umount", b.path("mnt")])
        b.refuses(("lay", device), f"card: {device} has an ext2, ext3 or ext4 file system, and laying writes over it. Nothing was changed. To lay it anew: card lay --force {device}", files=())
        b.equal("lay --force once it is unmounted", b.run("lay", device, "--force").status, 0)
    finally:
        subprocess.run(["losetup", "-d", device])


def run(b):
    if os.geteuid() != 0 or not tool("losetup"):
        return b.not_run("loop device", "losetup and root are wanted")
    for size in (512, 4096):
        b.sparse("a.img", 32 << 20)
        device, why = attached(b, size, "--partscan")
        if not device:
            b.not_run(f"loop device with blocks of {size}", why)
            continue
        try:
            device_card(b, device, size)
            beside_sfdisk(b, device)
            if not tool("mkfs.ext4"):
                b.not_run("a mounted device", "there is no mkfs.ext4")
            elif size == 512:
                partition_mounted(b, device)
        finally:
            subprocess.run(["losetup", "-d", device])
        grown(b, size)
    if device:
        read_only(b)
    if tool("mkfs.ext4") and device:
        whole_mounted(b)
