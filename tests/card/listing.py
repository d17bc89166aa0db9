"""list as a table, as JSON and as a map, and free: what stands on a card, in words, to scale, and beside sfdisk."""
import fcntl
import json
import os
import struct
import subprocess
import termios

import gpt
from bench import like, tool

ODD = {
    1: gpt.Entry(2048, 4095, "north ridge", gpt.guid(1)),
    3: gpt.Entry(34, 34, 'a "b" \\ c', gpt.guid(3), gpt.TYPES["linux"], 1),
    12: gpt.Entry(4096, 6143, "höhen 高程", gpt.guid(12), gpt.TYPES["efi"], 1 << 48 | 1 << 52),
    128: gpt.Entry(8000, 8001, "", gpt.guid(128), "21686148-6449-6e6f-744e-656564454649", 2),
}
FLAGS = {1: "-", 3: "RequiredPartition", 12: "GUID:48,52", 128: "NoBlockIOProtocol"}


def aligned(b, what, lines):
    """Every column begins or ends at one place in all rows."""
    rows = [line for line in lines[1:] if gpt.ROW.fullmatch(line)]
    for column in range(1, 9):
        spans = [gpt.ROW.fullmatch(r).span(column) for r in rows]
        b.true(f"{what}: column {column} is aligned", len({s[0] for s in spans}) == 1 or len({s[1] for s in spans}) == 1, lines)


def tables(b):
    for size, blocks in ((512, 8192), (4096, 8192)):
        b.store("a.img", gpt.card(blocks, size, ODD))
        done = b.run("list", "a.img", "-b", size)
        lines = done.out.splitlines()
        b.equal("list: status", (done.status, done.err), (0, ""))
        b.equal("list: head", lines[:1] and lines[0].split(), gpt.HEAD)
        b.equal("list: rows", gpt.listed(lines), [gpt.row(s, e, size, FLAGS[s]) for s, e in ODD.items()])
        b.equal("list: last line", lines[-1:], ["used 4 of 128"])
        aligned(b, "list", lines)
    b.store("a.img", gpt.card(68))
    done = b.run("list", "a.img")
    b.equal("list of no slots", [line.split() for line in done.out.splitlines()], [gpt.HEAD, "used 0 of 128".split()])
    full = {s: gpt.Entry(33 + s, 33 + s, f"{s}", gpt.guid(s)) for s in range(1, 129)}
    b.store("a.img", gpt.card(195, entries=full))
    lines = b.run("list", "a.img").out.splitlines()
    b.equal("list of 128 slots", gpt.listed(lines), [gpt.row(s, e, 512) for s, e in full.items()])
    b.equal("list of 128 slots: last line", lines[-1:], ["used 128 of 128"])


def odd_bytes(b):
    """Names with control characters and half surrogates, and flags that no one may set."""
    for name, want in (("a\tb", r'"a\u{0*9}b"'), ("x\x1b[31m", r'"x\u{0*1b}[31m"'), ("\x7f", r'"\u{0*7f}"'), ("\n", r'"\u{0*a}"'), ("\x85", r'"\u{0*85}"')):
        b.store("a.img", gpt.card(128, entries={1: gpt.Entry(40, 40, name, gpt.guid(1))}))
        done = b.run("list", "a.img")
        rows = gpt.listed(done.out.splitlines())
        came = rows[0][7].lower() if rows and len(rows[0]) == 8 else done.out
        b.equal(f"list of the name {name!r}", came.replace("{00", "{").replace("{0", "{"), want.replace("0*", ""))
    b.store("a.img", gpt.card(128, entries={1: gpt.Entry(40, 40, "a\ud800b", gpt.guid(1))}))
    done = b.run("list", "a.img", binary=True)
    b.equal("list of half a surrogate: status", done.status, 0)
    b.true("list of half a surrogate: the output is UTF-8", done.out.decode("utf-8", "ignore").encode() == done.out, done.out)
    b.store("a.img", gpt.card(128, entries={1: gpt.Entry(40, 40, "x", gpt.guid(1), flags=1 << 3)}))
    rows = gpt.listed(b.run("list", "a.img").out.splitlines())
    b.true("list of a reserved flag", rows and rows[0][6] in ("reserved:0x8", "reserved:0x1"), rows)


def document(name, blocks, size, entries, attrs):
    """The document of sfdisk -J."""
    node = name + "p" if name[-1].isdigit() else name
    parts = []
    for slot, e in entries.items():
        part = {"node": f"{node}{slot}", "start": e.first, "size": e.last - e.first + 1, "type": e.type.upper(), "uuid": e.guid.upper()}
        part.update({"name": e.name} if e.name else {})
        part.update({"attrs": attrs[slot]} if attrs[slot] else {})
        parts.append(part)
    first, last = gpt.usable(blocks, size)
    return {"partitiontable": {"label": "gpt", "id": gpt.DISK.upper(), "device": name, "unit": "sectors", "firstlba": first, "lastlba": last, "sectorsize": size, "partitions": parts}}


def parsed(text):
    try:
        return json.loads(text)
    except ValueError as wrong:
        return f"{wrong}: {text}"


def as_json(b):
    mixed = {**ODD, 7: gpt.Entry(7000, 7100, "tab\there", gpt.guid(7), flags=7 | 1 << 48 | 1 << 63)}
    mixed = dict(sorted(mixed.items()))
    attrs = {1: "", 3: "RequiredPartition", 7: "RequiredPartition NoBlockIOProtocol LegacyBIOSBootable GUID:48,63", 12: "GUID:48,52", 128: "NoBlockIOProtocol"}
    for name in ("a.img", "disk0"):
        for size in (512, 4096):
            b.store(name, gpt.card(8192, size, mixed))
            done = b.run("list", name, "--json", "-b", size)
            b.equal(f"list {name} --json at {size}: status", (done.status, done.err), (0, ""))
            b.equal(f"list {name} --json at {size}", parsed(done.out), document(name, 8192, size, mixed, attrs))
    b.store("e.img", gpt.card(128))
    came = parsed(b.run("list", "e.img", "--json").out)
    if isinstance(came, dict):
        came["partitiontable"].setdefault("partitions", [])
    b.equal("list --json of no slots", came, document("e.img", 128, 512, {}, {}))
    if not tool("sfdisk"):
        return b.not_run("list --json beside sfdisk -J", "there is no sfdisk")
    b.store("a.img", gpt.card(8192, 512, mixed))
    for name in ("a.img", "disk0", "e.img"):
        if name == "disk0":
            b.store(name, gpt.card(8192, 512, mixed))
        theirs = parsed(subprocess.run(["sfdisk", "-J", name], cwd=b.folder, capture_output=True, text=True).stdout)
        table = theirs["partitiontable"]
        table.pop("grain", None)  # sfdisk's own default, and no part of the card
        table.setdefault("partitions", [])  # which sfdisk leaves out where there are none
        b.equal(f"list {name} --json beside sfdisk -J", parsed(b.run("list", name, "--json").out), theirs)


def map_lines(blocks, size, entries):
    """The lines below the drawing, in the order of the ground."""
    lines = [(e.first, f'  [{s:2}] {e.first}..{e.last} {gpt.words((e.last - e.first + 1) * size)} {gpt.row(s, e, size)[7]}') for s, e in entries.items()]
    lines += [(f, f"  free {f}..{t} {gpt.words((t - f + 1) * size)}") for f, t in gpt.runs(blocks, size, entries)]
    return [line for _, line in sorted(lines)]


def parts(done):
    """The lines below the drawing that are of slots and free ground; the tables may have lines too."""
    return [line for line in done.out.splitlines()[1:] if not line.startswith("  #") or "table" not in line]


def maps(b):
    b.store("a.img", gpt.card(8192, entries=ODD))
    widths = {}
    for columns in ("20", "40", "80", "132", "200"):
        done = b.run("list", "a.img", "--map", env={"COLUMNS": columns})
        lines = done.out.splitlines()
        b.equal(f"list --map at {columns}: status", (done.status, done.err), (0, ""))
        b.equal(f"list --map at {columns}: the parts", parts(done), map_lines(8192, 512, ODD))
        widths[columns] = len(lines[0]) if lines else 0
        b.true(f"list --map at {columns}: the drawing fits", int(columns) // 2 <= widths[columns] <= int(columns), lines[:1])
    none = b.run("list", "a.img", "--map")
    b.equal("list --map without COLUMNS is 80 wide", none.out, b.run("list", "a.img", "--map", env={"COLUMNS": "80"}).out)
    for columns in ("", "x", "0", "1", "3", "-5", "100000", "99999999999999999999"):
        done = b.run("list", "a.img", "--map", env={"COLUMNS": columns})
        b.equal(f"list --map with COLUMNS={columns}: the parts", parts(done), map_lines(8192, 512, ODD))
    b.store("a.img", gpt.card(128, 4096, {}))
    b.equal("list --map of no slots", parts(b.run("list", "a.img", "--map", "-b", "4096")), ["  free 6..122 468 KiB"])


def on_terminal(b):
    """Without COLUMNS the terminal's own width counts."""
    b.store("a.img", gpt.card(8192, entries=ODD))
    for columns in (60, 150):
        master, slave = os.openpty()
        fcntl.ioctl(slave, termios.TIOCSWINSZ, struct.pack("HHHH", 24, columns, 0, 0))
        p = subprocess.Popen(b.command("list", "a.img", "--map"), cwd=b.folder, env=b.environment(), stdin=subprocess.DEVNULL, stdout=slave, stderr=subprocess.DEVNULL)
        status = p.wait(60)
        os.close(slave)
        text = os.read(master, 65536).decode().replace("\r\n", "\n")
        os.close(master)
        b.equal(f"list --map on a terminal of {columns}", (status, text), (0, b.run("list", "a.img", "--map", env={"COLUMNS": str(columns)}).out))


def scale(b):
    """The share of the drawing that is free is the card's."""
    b.store("a.img", gpt.card(10000))
    lines = b.run("list", "a.img", "--map", env={"COLUMNS": "100"}).out.splitlines() or [" "]
    free = max(set(lines[0]), key=lines[0].count)
    for share in (10, 25, 50, 75, 90):
        b.store("a.img", gpt.card(10000, entries={1: gpt.Entry(34, 34 + 99 * share, "x", gpt.guid(1))}))
        line = (b.run("list", "a.img", "--map", env={"COLUMNS": "100"}).out.splitlines() or [" "])[0]
        came = 100 * line.count(free) // max(len(line), 1)
        b.true(f"list --map: a card of which {share} of 100 are used", abs(came - (100 - share)) <= 8, f"{came} of 100 are free in {line}")


def frees(b):
    def want(blocks, size, entries):
        found = gpt.runs(blocks, size, entries)
        total = sum(t - f + 1 for f, t in found)
        rows = [["first", "last", "blocks", "size"]] + [[str(f), str(t), str(t - f + 1), *gpt.words((t - f + 1) * size).split()] for f, t in found]
        return rows, like(f"free {len(found)} run{{..}}, {total} block{{..}} ({gpt.words(total * size)})" if len(found) == 1 or total == 1 else f"free {len(found)} runs, {total} blocks ({gpt.words(total * size)})")

    full = {1: gpt.Entry(34, 94, "all", gpt.guid(1))}
    for size, blocks, entries in ((512, 8192, ODD), (4096, 8192, ODD), (512, 128, {}), (512, 128, full), (512, 128, {1: gpt.Entry(34, 93, "all but one", gpt.guid(1))}),
                                  (512, 128, {2: gpt.Entry(50, 50, "", gpt.guid(1)), 1: gpt.Entry(52, 60, "", gpt.guid(2))})):
        b.store("a.img", gpt.card(blocks, size, entries))
        done = b.run("free", "a.img", "-b", size)
        rows, last = want(blocks, size, entries)
        lines = done.out.splitlines() or [""]
        b.equal("free: status", (done.status, done.err), (0, ""))
        b.equal("free: head and rows", [line.split() for line in lines[:-1]], rows)
        b.equal("free: last line", lines[-1], last)


def run(b):
    tables(b)
    odd_bytes(b)
    as_json(b)


def run_map(b):
    maps(b)
    on_terminal(b)
    scale(b)


def run_free(b):
    frees(b)
