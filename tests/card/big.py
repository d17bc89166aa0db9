"""Cards in sparse files of 64 GiB: only the tables' blocks and the payload's own bytes are read and written, and the file stays sparse."""
import os

import gpt
import straced

LENGTH = 64 << 30
PLACE = 20 << 30


def extents(path):
    """The parts of a file that hold data."""
    found, at = [], 0
    with open(path, "rb") as f:
        while True:
            try:
                begin = os.lseek(f.fileno(), at, os.SEEK_DATA)
            except OSError:
                return found
            at = os.lseek(f.fileno(), begin, os.SEEK_HOLE)
            found.append((begin, at))


def inside(span, spans, slack=0):
    return any(f - slack <= span[0] and span[1] <= t + slack for f, t in spans)


def windows(size):
    """The bytes of block 0 and the front table, and those of the back table."""
    return [(0, (gpt.per(size) + 2) * size), (LENGTH - (gpt.per(size) + 1) * size, LENGTH)]


def sparse(b, what, spans):
    """The file is small on the disk, and has data where it was written alone."""
    path = b.path("a.img")
    b.true(f"{what}: the file stays sparse", os.stat(path).st_blocks * 512 < 4 << 20, os.stat(path).st_blocks * 512)
    b.equal(f"{what}: data where it was written alone", [e for e in extents(path) if not inside(e, spans, 65536)], [])


def tables(b, what, size, entries):
    with open(b.path("a.img"), "rb") as f:
        for place, data in gpt.tables(LENGTH // size, size, entries).items():
            f.seek(place)
            b.true(f"{what}: the bytes at {place}", f.read(len(data)) == data)


def card(b, size):
    blocks = LENGTH // size
    first, last = gpt.usable(blocks, size)
    b.says(("lay", "a.img", "--size", "64G", "-b", size, "--guid", gpt.DISK), f"card laid: a.img: {blocks} blocks of {size} bytes (64 GiB), GUID {gpt.DISK}, usable blocks {first} to {last}\n")
    begin, end = (1 << 20) // size, (1 << 20) // size + (32 << 30) // size - 1
    entries = {1: gpt.Entry(begin, end, "field", gpt.guid(1))}
    tables(b, "lay", size, {})
    b.says(("put", "a.img", "next", "--size", "32G", "--name", "field", "--guid", gpt.guid(1), "-b", size), f'slot 1 put: blocks {begin} to {end} (32 GiB), type data, GUID {gpt.guid(1)}, "field"\n')
    tables(b, "put", size, entries)
    sparse(b, "put", windows(size))
    data = b.rng.randbytes(10000)
    b.says(("write", "a.img", "1", "-", "--at", PLACE, "-b", size), f"slot 1: 10000 bytes written from place {PLACE}, verified\n", stdin=data)
    done = b.run("read", "a.img", "1", "--at", PLACE - 5, "--length", 10010, "-b", size, binary=True)
    b.true("read at 20 GiB", (done.status, done.out) == (0, bytes(5) + data + bytes(5)))
    begin = (1 << 20) + PLACE
    sparse(b, "write", [*windows(size), (begin, begin + 10000)])
    tables(b, "write", size, entries)
    b.equal("check", b.run("check", "a.img", "-b", size).status, 0)
    b.equal("list", gpt.listed(b.run("list", "a.img", "-b", size).out.splitlines()), [gpt.row(1, entries[1], size)])


def mapped(b, size):
    """uefi maps the file; an emulator first asks for as much memory, which not every machine grants."""
    done = b.run("uefi", "a.img", "-b", size)
    if done.err == "card: a.img: Cannot allocate memory\n":
        return b.not_run(f"uefi of 64 GiB at {size}", "so much cannot be mapped here")
    halves = done.out.split("back table:\n")
    b.equal("uefi: status", (done.status, done.err, len(halves)), (0, "", 2))
    for half in (halves[0].replace("front table:\n", ""), halves[-1]):
        b.equal("uefi: the rows", [r[:4] for r in gpt.listed(half.splitlines())], [("1", str((1 << 20) // size), str((1 << 20) // size + (32 << 30) // size - 1), "32 GiB")])


def traced(b, size):
    """What each command reads and writes: the tables' own bytes, and the payload's."""
    spans, most = windows(size), (2 * gpt.per(size) + 3) * size
    payload = [((1 << 20) + PLACE, (1 << 20) + PLACE + 10000)]
    for words, more, times in ((("check", "a.img"), [], 1), (("list", "a.img"), [], 1), (("list", "a.img", "--json"), [], 1), (("free", "a.img"), [], 1), (("show", "a.img"), [], 1),
                               (("put", "a.img", "2", "--size", "1G"), [], 3), (("clear", "a.img", "2"), [], 3), (("read", "a.img", "1", "--at", PLACE, "--length", "10000"), payload, 1),
                               (("write", "a.img", "1", "src", "--at", PLACE), payload, 1), (("label", "a.img", "1"), [(1 << 20, (1 << 20) + 13)], 1), (("repair", "a.img"), [], 1)):
        found, done = straced.events(b, (*words, "-b", size), "a.img")
        what = f"card {' '.join(map(str, words))} at {size}"
        reads = [(e.place, e.place + e.length) for e in found if e.kind == "read" and e.length > 0]
        b.true(f"{what}: it reads the card", reads or any(e.kind == "map" for e in found), done)
        b.equal(f"{what}: reads outside the tables and the payload", [r for r in reads if not inside(r, spans + more)], [])
        of_tables = sum(t - f for f, t in reads if inside((f, t), spans))
        b.true(f"{what}: at most {times} times the bytes of the tables", of_tables <= times * most, of_tables)
        writes = [(e.place, e.place + e.length) for e in found if e.kind == "write" and e.length > 0]
        b.equal(f"{what}: writes outside the tables and the payload", [w for w in writes if not inside(w, spans + more)], [])
        b.equal(f"{what}: no mapping of the file", [e for e in found if e.kind == "map"], [])


def run(b):
    room = os.statvfs(b.folder)
    try:
        b.sparse("a.img", LENGTH)
    except OSError as why:
        return b.not_run("files of 64 GiB", f"the file system takes none: {why.strerror}")
    if os.stat(b.path("a.img")).st_blocks * 512 > 1 << 20 or room.f_bavail * room.f_frsize < 16 << 20:
        return b.not_run("files of 64 GiB", "the file system has no sparse files, or no room")
    for size in (512, 4096):
        b.remove("a.img")
        card(b, size)
        mapped(b, size)
        b.store("src", b.rng.randbytes(10000))
        if straced.missing():
            b.not_run("where the reads are", straced.missing())
        else:
            traced(b, size)
