"""write and read: the bytes of a partition, from files and standard input, from any place, and what passes its end."""
import os
import re
import subprocess

import gpt
from bench import like

ENTRIES = {1: gpt.Entry(34, 65, "north ridge", gpt.guid(1)), 2: gpt.Entry(66, 66, "one", gpt.guid(2))}


def writes(b):
    for size in (512, 4096):
        image = gpt.card(128, size, ENTRIES, fill=0xA5, after=9)
        room = 32 * size
        for at, length in ((0, 0), (0, 1), (0, 511), (0, room), (13, 700), (room - 1, 1), (room, 0), (size, size), (size - 1, 2)):
            data = b.rng.randbytes(length)
            b.store("src", data)
            for source, stdin in (("src", None), ("-", data)):
                b.store("a.img", image)
                place = ("--at", at) if at else ()
                line = f"slot 1: {length} bytes written from place {at}, verified\n"
                line = like(line.replace("bytes", "byte{..}")) if length == 1 else line
                b.says(("write", "a.img", "1", source, *place, "-b", size), line, stdin=stdin)
                b.true(f"write of {length} bytes at {at}: the bytes", b.bytes("a.img") == gpt.stored(image, 34 * size + at, data))
    with open(b.path("src"), "rb") as f:
        b.store("a.img", image)
        b.equal("write from a file as standard input", b.run("write", "a.img", "2", "-", "-b", "4096", stdin=f).status, 0)


def long_source(b):
    """A source of several pieces, through a pipe that is slow, and the progress on standard error."""
    entries = {1: gpt.Entry(2048, 10239, "map", gpt.guid(1))}
    image, data = gpt.card(12000, entries=entries), b.rng.randbytes(3 * (1 << 20) + 77)
    b.store("src", data)
    for words, stdin in ((("src",), None), (("-",), data), (("src", "--progress"), None)):
        b.store("a.img", image)
        done = b.run("write", "a.img", "1", *words, stdin=stdin)
        b.equal(f"write of 3 MiB {words}", (done.status, done.out), (0, f"slot 1: {len(data)} bytes written from place 0, verified\n"))
        b.true(f"write of 3 MiB {words}: standard error", bool(done.err) == ("--progress" in words), done.err)
        b.true(f"write of 3 MiB {words}: the bytes", b.bytes("a.img") == gpt.stored(image, 2048 * 512, data))
    b.store("a.img", image)
    p = b.start("write", "a.img", "1", "-", stdin=subprocess.PIPE)
    for at in range(0, len(data), 300001):
        try:
            p.stdin.write(data[at:at + 300001])
            p.stdin.flush()
        except BrokenPipeError:
            break
    b.equal("write from a pipe in pieces", b.ended(p).status, 0)
    b.true("write from a pipe in pieces: the bytes", b.bytes("a.img") == gpt.stored(image, 2048 * 512, data))
    back = b.run("read", "a.img", "1", "--length", len(data), binary=True)
    b.true("and read", (back.status, back.out) == (0, data))


def reads(b):
    for size in (512, 4096):
        image = bytearray(gpt.card(128, size, ENTRIES))
        image[34 * size:67 * size] = b.rng.randbytes(33 * size)
        b.store("a.img", image)
        room = 32 * size
        for at, length in ((None, None), (0, room), (13, None), (13, 0), (13, 1), (room - 5, 5), (room - 5, None), (room, None), (room, 0), (size - 3, 1000)):
            words = (() if at is None else ("--at", at)) + (() if length is None else ("--length", length))
            done = b.run("read", "a.img", "1", *words, "-b", size, binary=True)
            begin = 34 * size + (at or 0)
            want = bytes(image[begin:66 * size if length is None else begin + length])
            b.true(f"read {words} at {size}: the bytes", (done.status, done.out, done.err) == (0, want, ""), f"{done.status} {len(done.out)} {done.err}")
        b.true("read changes nothing", b.bytes("a.img") == image)


def piped(b, at, data):
    """A pipe's length cannot be asked: what is too long is refused all the same, and the bytes that it names are in order."""
    done = b.refuses(("write", "a.img", "2", "-", "--at", at), like("card: slot 2 not written{..}: bytes {n} to {n} pass its end: the partition has 512 bytes. Nothing was changed. [24]\n"), stdin=data)
    ends = [int(n) for n in re.findall(r"bytes (\d+) to (\d+)", done.err)[0]] if "bytes " in done.err else [1, 0]
    b.true(f"write of {len(data)} bytes of a pipe at {at}: the bytes that it names", ends[0] <= ends[1] and ends[1] >= 512, done.err)


def long_pipe(b):
    """A pipe that is longer than the partition, and than what is read at once: what was written is said."""
    entries = {1: gpt.Entry(2048, 6143, "map", gpt.guid(1)), 2: gpt.Entry(6144, 6150, "next", gpt.guid(2))}
    image, data = gpt.card(8192, entries=entries, fill=0xA5), b.rng.randbytes(3 << 20)
    b.store("a.img", image)
    done = b.run("write", "a.img", "1", "-", stdin=data)
    b.equal("write of a pipe of 3 MiB into 2 MiB: status", done.status, 1)
    b.equal("write of a pipe of 3 MiB into 2 MiB: words", done.err, like("card: slot 1 not written{..} pass its end: the partition has 2097152 bytes. {..} [24]\n"))
    came = b.bytes("a.img")
    changed = next((n for n in range(2 << 20, -1, -4096) if came == gpt.stored(image, 2048 * 512, data[:n])), None)
    said = re.search(r"(\d+) bytes from place 0 on were written", done.err)
    b.equal("write of a pipe of 3 MiB into 2 MiB: the bytes written are those that it names", changed, int(said[1]) if said else 0)


def refusals(b):
    image = gpt.card(128, entries=ENTRIES, fill=0xA5)
    b.store("a.img", image)
    for at, length in ((0, 513), (100, 500), (512, 1), (511, 2), (600, 100)):
        b.store("src", b"x" * length)
        why = f"bytes {at} to {at + length - 1} pass its end: the partition has 512 bytes"
        b.refuses(("write", "a.img", "2", "src", "--at", at), f"card: slot 2 not written: {why}. Nothing was changed. [24]")
        with open(b.path("src"), "rb") as f:
            b.refuses(("write", "a.img", "2", "-", "--at", at), f"card: slot 2 not written: {why}. Nothing was changed. [24]", stdin=f)
        piped(b, at, b"x" * length)
        b.refuses(("read", "a.img", "2", "--at", at, "--length", length), f"card: slot 2 not read: {why}. [24]")
    b.refuses(("read", "a.img", "2", "--at", "513"), like("card: slot 2 not read: {..}the partition has 512 bytes. [24]\n"))
    b.refuses(("read", "a.img", "2", "--at", str(2**64 - 1), "--length", "10"), like("card: {..}\n"), None)
    for slot, number, why in ((5, 23, "slot 5 is not used"), (0, 18, "there is no slot 0: a card has slots 1 to 128"), (200, 18, "there is no slot 200: a card has slots 1 to 128")):
        b.refuses(("write", "a.img", slot, "src"), f"card: slot {slot} not written: {why}. Nothing was changed. [{number}]")
        b.refuses(("read", "a.img", slot), f"card: slot {slot} not read: {why}. [{number}]")
    b.refuses(("write", "a.img", "1", "none"), "card: none: No such file or directory", 3)
    os.mkdir(b.path("folder"))
    b.refuses(("write", "a.img", "1", "folder"), like("card: folder{..}\n"), 3)
    b.refuses(("write", "a.img", "1", "a.img"), like("card: slot 1 not written: bytes 0 to 65535 pass its end: the partition has 16384 bytes. Nothing was changed. [24]\n"))
    b.refuses(("write", "a.img", "1", "/dev/zero"), like("card: slot 1 not written{..} pass its end: the partition has 16384 bytes. Nothing was changed. [24]\n"))
    b.says(("write", "a.img", "1", "/dev/null"), "slot 1: 0 bytes written from place 0, verified\n")
    on_terminal(b)


def on_terminal(b):
    """Progress is shown where standard error is a terminal."""
    entries = {1: gpt.Entry(2048, 34815, "map", gpt.guid(1))}
    b.store("t.img", gpt.card(40000, entries=entries))
    b.store("src", bytes(16 << 20))
    master, slave = os.openpty()
    p = subprocess.Popen(b.command("write", "t.img", "1", "src"), cwd=b.folder, env=b.environment(), stdin=subprocess.DEVNULL, stdout=subprocess.PIPE, stderr=slave)
    os.close(slave)
    out = p.stdout.read()
    status = p.wait(60)
    try:
        shown = os.read(master, 65536)
    except OSError:
        shown = b""
    os.close(master)
    b.equal("write with a terminal: status and output", (status, out), (0, b"slot 1: 16777216 bytes written from place 0, verified\n"))
    b.true("write with a terminal: progress is shown", shown.strip() != b"", shown)


def run(b):
    writes(b)
    long_source(b)
    long_pipe(b)
    reads(b)
    refusals(b)
