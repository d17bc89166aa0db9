"""strace around the command: where it reads and writes a file, and calls that fail or are slow."""
import collections
import os
import re
import subprocess

from bench import tool

CALLS = "read,pread64,readv,preadv,preadv2,lseek,write,pwrite64,writev,pwritev,pwritev2,fsync,fdatasync,ftruncate,mmap,close"
READS, WRITES = {"read", "pread64", "readv", "preadv", "preadv2"}, {"write", "pwrite64", "writev", "pwritev", "pwritev2"}
Event = collections.namedtuple("Event", "kind place length data")
LINE = re.compile(r"(?:\[pid +)?(\d+)\]? +(\w+)\((.*)\) += (-?\d+|0x[0-9a-f]+).*")
works = None


def missing():
    """Why strace cannot be used here, or None."""
    global works
    if works is None:
        works = "there is no strace"
        if tool("strace"):
            tried = subprocess.run(["strace", "-f", "-o", "/dev/null", "-e", "trace=read", "true"], capture_output=True, text=True)
            works = "" if tried.returncode == 0 else f"strace cannot trace here: {tried.stderr.strip()[:100]}"
    return works or None


def joined(text):
    """The lines of a log, with calls that were cut by another thread put together."""
    waiting = {}
    for line in text.splitlines():
        pid = line.split(None, 1)[0]
        if line.endswith("<unfinished ...>"):
            waiting[pid] = line[:-len("<unfinished ...>")].rstrip()
        elif "resumed>" in line and pid in waiting:
            yield waiting.pop(pid) + line.split("resumed>", 1)[1]
        else:
            yield line


def plain(text):
    return bytes.fromhex("".join(re.findall(r'"((?:\\x[0-9a-f]{2})*)"', text)).replace("\\x", ""))


def event(name, words, result, at):
    """One call as an event; `at` holds the place of each descriptor."""
    fd = words.split(",", 1)[0].strip()
    if name == "close":
        at.pop(fd, None)
    elif name == "lseek":
        at[fd] = result
    elif name in READS | WRITES:
        by_place = name.startswith("p")
        numbers = re.sub(r'"[^"]*"(\.\.\.)?', "", words).split(",")
        if name in ("preadv2", "pwritev2"):
            numbers = numbers[:-1]
        place = int(numbers[-1], 0) if by_place else at.get(fd, 0)
        if not by_place:
            at[fd] = place + max(result, 0)
        kind = "read" if name in READS else "write"
        return Event(kind, place, result, plain(words)[:result] if kind == "write" else b"")
    elif name in ("fsync", "fdatasync"):
        return Event("sync", 0, result, b"")
    elif name == "ftruncate":
        return Event("truncate", int(words.split(",")[1], 0), 0, b"")
    elif name == "mmap":
        return Event("map", 0, int(words.split(",")[1], 0), b"")
    return None


def events(b, words, file, **how):
    """Runs the command under strace: what it did to the file, in order, and what it said."""
    log = b.path("strace.log")
    done = b.run(*words, before=("strace", "-f", "-qq", "-xx", "-s", "4000000", "-o", log, "-P", os.path.realpath(b.path(file)), "-e", f"trace={CALLS}"), **how)
    with open(log, errors="replace") as f:
        text = f.read()
    at, found = {}, []
    for line in joined(text):
        match = LINE.match(line)
        if match:
            came = event(match[2], match[3], int(match[4], 0), at)
            if came:
                found.append(came)
    return found, done


def injected(file, calls, fault):
    """The words before a command of which some calls on the file fail or are slow."""
    return ("strace", "-f", "-qq", "-o", "/dev/null", "-P", os.path.realpath(file), "-e", f"trace={calls}", "-e", f"inject={calls}:{fault}")


def prefixes(image, found):
    """The image after each number of its writes, from none to all."""
    image = bytearray(image)
    yield bytes(image)
    for e in found:
        if e.kind == "write" and e.data:
            image[e.place:e.place + len(e.data)] = e.data
            yield bytes(image)
