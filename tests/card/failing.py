"""Input and output that fails: full disks, closed and broken output, files that cannot be written, calls that fail, and a file that becomes shorter in the middle."""
import os
import re
import subprocess
import time

import gpt
import straced
from bench import CARD, like

ENTRIES = {1: gpt.Entry(34, 37, "map", gpt.guid(1)), 6: gpt.Entry(38, 39, "roads", gpt.guid(6))}
PUT = ("put", "a.img", "2", "--first", "40", "--last", "41", "--name", "new", "--guid", gpt.guid(2))
AFTER = {1: ENTRIES[1], 2: gpt.Entry(40, 41, "new", gpt.guid(2)), 6: ENTRIES[6]}
READERS = (("check", "a.img"), ("list", "a.img"), ("list", "a.img", "--json"), ("list", "a.img", "--map"), ("free", "a.img"), ("show", "a.img"), ("read", "a.img", "1"), ("uefi", "a.img"),
           ("report", "a.img"), ("label", "a.img", "1"), ("screen", "a.img", "1"), ("help",), ("--version",), ("help", "put"), ("put", "--help"))
WRITERS = (PUT, ("clear", "a.img", "6"), ("clear", "a.img", "6", "--wipe"), ("write", "a.img", "1", "src"), ("label", "a.img", "1", "--style", "4"), ("lay", "a.img", "--force"))


def whole():
    return gpt.stored(gpt.card(128, entries=ENTRIES), 34 * 512, gpt.label(2026, 5, 1, 3, 1))


def to_output(b, what, words, wanted, **how):
    """A command whose output fails: its line and its status; what it had to do is done, or was no writing."""
    b.store("a.img", whole())
    b.store("src", b"map")
    done = b.run(*words, **how)
    b.equal(f"card {' '.join(words)}, {what}: status", done.status, 3)
    b.equal(f"card {' '.join(words)}, {what}: words", done.err, wanted)
    changed = b.bytes("a.img") != whole()
    b.equal(f"card {' '.join(words)}, {what}: the card is changed", changed, words in WRITERS)
    b.equal("and check", b.run("check", "a.img").status, 0)


def outputs(b):
    for words in READERS:
        with open("/dev/full", "wb") as full:
            to_output(b, "output full", words, "card: cannot write the output: No space left on device\n", stdout=full)
    for words in WRITERS:
        with open("/dev/full", "wb") as full:
            to_output(b, "output full", words, "card: done, but the report cannot be written: No space left on device\n", stdout=full)
    for words in (*READERS, *WRITERS):
        reads, writes = os.pipe()
        os.close(reads)
        to_output(b, "a pipe that nobody reads", words, "", stdout=writes)
        os.close(writes)


def closed(b):
    """A closed output is an output that cannot be written, and never the card."""
    for words in (("list", "a.img"), ("check", "a.img"), ("read", "a.img", "1"), ("--version",)):
        to_output(b, "output closed", words, like("card: cannot write the output: {..}\n"), preexec_fn=lambda: os.close(1), stdout=None)
    b.store("a.img", whole())
    done = b.run(*PUT, preexec_fn=lambda: os.close(1), stdout=None)
    b.equal("put, output closed: status", done.status, 3)
    want = "card: cannot write the output: {..}\n" if b.bytes("a.img") == whole() else "card: done, but the report cannot be written: {..}\n"
    b.equal("put, output closed: words, by whether the card is changed", done.err, like(want))
    b.equal("put, output closed: check", b.run("check", "a.img").status, 0)
    b.store("a.img", whole())
    done = b.run("list", "a.img", preexec_fn=lambda: (os.close(0), os.close(2)))
    b.equal("list with input and standard error closed", (done.status, len(done.out.splitlines())), (0, 4))
    done = b.run("write", "a.img", "1", "-", preexec_fn=lambda: os.close(0))
    b.true("write from a closed input", done.status == 3 and done.err.startswith("card: ") or done.status == 0 and "0 bytes" in done.out, done)
    b.store("a.img", whole())
    done = b.run("check", "none.img", preexec_fn=lambda: os.close(2))
    b.equal("a refusal with standard error closed", done.status, 3)


def early_end(b):
    """A reader of the output that goes away in the middle of it."""
    b.store("a.img", gpt.card(20000, entries={1: gpt.Entry(34, 19000, "long", gpt.guid(1))}))
    p = b.start("read", "a.img", "1")
    p.stdout.read(100)
    p.stdout.close()
    p.stdout = None
    done = b.ended(p)
    b.equal("read into a pipe that ends early", (done.status, done.err), (3, ""))


def read_only(b):
    """A file that may be read alone."""
    if os.geteuid() != 0:
        b.store("a.img", whole())
        os.chmod(b.path("a.img"), 0o444)
        user = {}
    else:
        user = {"user": 65534, "group": 65534, "extra_groups": []}
        os.chmod(b.folder, 0o755)
        b.store("a.img", whole())
        os.chmod(b.path("a.img"), 0o644)
    try:
        tried = b.run("check", "a.img", **user)
    except (PermissionError, subprocess.SubprocessError):
        return b.not_run("a read-only file", "the program cannot be started as another user")
    b.equal("check of a file that may be read alone", tried.status, 0)
    for words in ((*PUT,), ("clear", "a.img", "1"), ("lay", "a.img", "--force"), ("label", "a.img", "1", "--style", "4"), ("repair", "a.img"), ("grow", "a.img")):
        done = b.run(*words, **user)
        if words[0] in ("repair", "grow") and done.status == 0:
            continue  # nothing to do
        b.equal(f"{words[0]} of a file that may be read alone", (done.status, done.err), (3, "card: a.img: Permission denied\n"))
    b.true("a file that may be read alone: the bytes", b.bytes("a.img") == whole())
    os.chmod(b.path("a.img"), 0o644)
    b.refuses(("lay", "folder/none/a.img", "--size", "64K"), "card: folder/none/a.img: No such file or directory", 3)


def mounted(b, size):
    """A small file system in memory, or None."""
    os.makedirs(b.path("small"), exist_ok=True)
    done = subprocess.run(["mount", "-t", "tmpfs", "-o", f"size={size}", "none", b.path("small")], capture_output=True)
    return done.returncode == 0


def partly(b, words):
    """How much of a source is on the card, beside what the command says of it."""
    with open(b.path("small/a.img"), "rb") as f:
        f.seek(2048 * 512)
        came = f.read(900000).rstrip(b"\0").count(1)
    said = re.search(r"(\d+) bytes from place 0 on were written", words)
    b.true("write on a small disk: the bytes that it says were written", not said or int(said[1]) == came, f"{came} bytes are there: {words}")


def full_disk(b):
    if os.geteuid() != 0 or not mounted(b, "128k"):
        return b.not_run("a full disk", "a file system cannot be mounted here")
    try:
        b.store("small/fill", bytes(124 << 10))
        b.refuses(("lay", "small/a.img", "--size", "1M"), "card: small/a.img: No space left on device", 3, ())
        b.remove("small/fill", "small/a.img")
        entries = {1: gpt.Entry(2048, 4000, "x", gpt.guid(1))}
        b.equal("lay on a small disk", b.run("lay", "small/a.img", "--size", "4M", "--guid", gpt.DISK).status, 0)
        b.equal("put on a small disk", b.run("put", "small/a.img", "1", "--first", "2048", "--last", "4000", "--name", "x", "--guid", gpt.guid(1)).status, 0)
        b.store("src", bytes([1]) * 900000)
        done = b.refuses(("write", "small/a.img", "1", "src"), like("card: small/a.img: No space left on device{..}\n"), 3, ())
        partly(b, done.err)
        b.equal("and check", b.run("check", "small/a.img").status, 0)
        b.equal("and list", gpt.listed(b.run("list", "small/a.img").out.splitlines()), [gpt.row(1, entries[1], 512)])
        with open(b.path("small/out"), "wb") as out:
            done = b.run("read", "small/a.img", "1", stdout=out)
        b.equal("read to a full disk", (done.status, done.err), (3, "card: cannot write the output: No space left on device\n"))
        subprocess.run(["mount", "-o", "remount,ro", b.path("small")], check=True)
        b.refuses(("clear", "small/a.img", "1"), "card: small/a.img: Read-only file system", 3, ("small/a.img",))
        b.equal("check on a disk that is read-only", b.run("check", "small/a.img").status, 0)
    finally:
        subprocess.run(["umount", "-l", b.path("small")])


def old_or_new(b, what, size=512):
    """After an update that failed: the old list or the new one, and repair and check then accept."""
    shown = gpt.listed(b.run("show", "a.img").out.splitlines()[1:])
    b.true(f"{what}: the old list or the new one", shown in ([gpt.row(s, e, size) for s, e in t.items()] for t in (ENTRIES, AFTER)), shown)
    b.equal(f"{what}: repair", b.run("repair", "a.img").status, 0)
    b.equal(f"{what}: check", b.run("check", "a.img").status, 0)
    b.equal(f"{what}: the same list", gpt.listed(b.run("list", "a.img").out.splitlines()), shown)


def errors(b):
    """EIO by each write and each fsync of a put, and by reads; EINTR, after which the command goes on."""
    path = b.path("a.img")
    for calls in ("pwrite64,write,writev,pwritev", "fsync,fdatasync"):
        for when in (1, 2, 3, 4):
            b.store("a.img", whole())
            done = b.run(*PUT, before=straced.injected(path, calls, f"error=EIO:when={when}"))
            b.equal(f"put, EIO by no. {when} of {calls}", (done.status, done.out), (3, ""))
            b.equal(f"put, EIO by no. {when} of {calls}: words", done.err, like("card: a.img: {..}Input/output error{..}\n"))
            old_or_new(b, f"put, EIO by no. {when} of {calls}")
    for words in (("list", "a.img"), ("check", "a.img"), PUT, ("read", "a.img", "1")):
        b.store("a.img", whole())
        b.refuses(words, "card: a.img: Input/output error", 3, before=straced.injected(path, "read,pread64,readv,preadv", "error=EIO:when=1"))
    for calls in ("pwrite64,write,writev,pwritev", "fsync,fdatasync", "read,pread64,readv,preadv", "flock"):
        b.store("a.img", whole())
        done = b.run(*PUT, before=straced.injected(path, calls, "error=EINTR:when=1+2"))
        b.equal(f"put, EINTR by every second of {calls}", (done.status, done.err), (0, ""))
        b.true(f"put, EINTR by every second of {calls}: the bytes", b.bytes("a.img") == gpt.stored(gpt.card(128, entries=AFTER), 34 * 512, gpt.label(2026, 5, 1, 3, 1)))
    b.store("src", b"map")
    b.store("a.img", whole())
    b.refuses(("write", "a.img", "1", "src"), "card: src: Input/output error", 3, before=straced.injected(b.path("src"), "read,pread64,readv,copy_file_range,sendfile", "error=EIO:when=1"))


def shrinks(b):
    """The file becomes shorter, or longer, while the first store waits: the command fails, and makes no file longer again."""
    path = b.path("a.img")
    for what, length in (("shorter", 100 * 512), ("longer", 200 * 512)):
        b.store("a.img", whole())
        p = subprocess.Popen([*straced.injected(path, "fsync,fdatasync", "delay_exit=1500000:when=1"), *CARD, *PUT], cwd=b.folder, stdout=subprocess.PIPE, stderr=subprocess.PIPE, env=b.environment())
        end = time.monotonic() + 10
        while b.bytes("a.img") == whole() and time.monotonic() < end:
            time.sleep(0.01)
        os.truncate(path, length)
        done = b.ended(p)
        b.equal(f"put into a file that becomes {what} in the middle: status", done.status, 3)
        b.true(f"put into a file that becomes {what} in the middle: words", done.err.startswith("card: a.img"), done.err)
        b.equal(f"put into a file that becomes {what} in the middle: its length", os.path.getsize(path), length)


def shrinks_mapped(b):
    """The file becomes shorter under the mapping of uefi."""
    b.store("a.img", whole())
    p = subprocess.Popen([*straced.injected(b.path("a.img"), "mmap", "delay_exit=1500000:when=1"), *CARD, "uefi", "a.img"], cwd=b.folder, stdout=subprocess.PIPE, stderr=subprocess.PIPE, env=b.environment())
    time.sleep(0.8)
    os.truncate(b.path("a.img"), 100)
    done = b.ended(p)
    b.equal("uefi of a file that becomes shorter: status", done.status, 3)
    b.true("uefi of a file that becomes shorter: words", done.err.startswith("card: "), done)


def shrinks_piped(b):
    """The same while a write waits for its standard input."""
    b.store("a.img", whole())
    p = b.start("write", "a.img", "1", "-", stdin=subprocess.PIPE)
    time.sleep(1)
    os.truncate(b.path("a.img"), 36 * 512)
    try:
        p.stdin.write(bytes(1500))
    except BrokenPipeError:
        pass
    done = b.ended(p)
    b.true("write into a file that becomes shorter while the input waits", done.status == 3 or done.status == 1 and "[" in done.err, done)
    b.equal("write into a file that becomes shorter: its length", os.path.getsize(b.path("a.img")), 36 * 512)


def run(b):
    outputs(b)
    closed(b)
    early_end(b)
    read_only(b)
    full_disk(b)
    shrinks_piped(b)
    if straced.missing():
        return b.not_run("EIO, EINTR and a file that becomes shorter between two stores", straced.missing())
    errors(b)
    shrinks(b)
    shrinks_mapped(b)
