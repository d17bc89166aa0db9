"""What refusals advise, typed in a shell as it stands: with the block size that was given and no other, and whatever name the file has."""
import os
import re
import shlex
import subprocess

import gpt
import straced
from bench import CARD, SECONDS, tool
from check import damaged

ENTRIES = {1: gpt.Entry(40, 65, "north ridge", gpt.guid(1)), 2: gpt.Entry(66, 85, "roads", gpt.guid(2))}
NAMES = ("a.img", "a b.img", "it's.img", "-b.img", "--", "$HOME;a&b|c.img", 'q"u\\o\tt.img', "höhe 高.img", "~", "*?[a].img", "two\nlines.img", b"b\xffd 'x'.img".decode("utf-8", "surrogateescape"))
GIVEN = ((512, ()), (512, ("-b", "512")), (4096, ("-b", "4096")), (4096, ("--block-size=4096",)))


def typed(b, command):
    """Has a shell do what was advised."""
    return subprocess.run(["bash", "-c", command], cwd=b.folder, env=b.environment({"PATH": b.path("bin") + ":" + os.environ["PATH"]}), stdin=subprocess.DEVNULL, capture_output=True, timeout=SECONDS)


def in_words(b, said, verb, end, size, given):
    """The command that the words advise: behind a verb, up to what follows it."""
    found = re.search(rf"card {verb} (.*?){end}", said, re.S)
    if not b.true(f"card {verb} is advised", found, said):
        return "false"
    rest = found[1]
    b.equal(f"card {verb} {rest}: -b where it was given", re.findall(r"^-b \d+ ", rest), [f"-b {size} "] if given else [])
    b.true(f"card {verb} {rest!r}: a terminal can show it", rest.isprintable(), said)
    return f"card {verb} {rest}"


def does(b, name, image, words, verb, end, size, given, then=0):
    """One refusal: what it advises is typed, and ends well; then the check has this status."""
    b.store(name, image)
    said = b.run(words[0], *given, *words[1:], "--", name)
    b.equal(f"card {words[0]} of {name!r}: status", said.status, 1)
    command = in_words(b, said.err, verb, end, size, given)
    done = typed(b, command)
    b.true(f"{command}: does it", done.returncode == 0, f"{done.returncode} {done.stderr}")
    if then is not None:
        b.equal(f"{command}: the check then", b.run("check", *given, "--", name).status, then)


def names(b):
    """Every name, without -b; and every form of -b, on two of the names."""
    for size, given in GIVEN:
        whole = gpt.card(128, size, ENTRIES)
        longer = whole + bytes(64 * size)
        for name in NAMES if not given else NAMES[:2]:
            does(b, name, damaged(whole, size, True, 5), ("check",), "repair", r" \[5\]", size, given)
            does(b, name, longer, ("check",), "grow", r" \[16\]", size, given)
            does(b, name, whole, ("lay",), "lay --force", "\n$", size, given)
            b.remove(name)


def each(b):
    """Every other command that is advised, at both block sizes."""
    for size, given in GIVEN:
        whole = gpt.card(128, size, ENTRIES)
        other = gpt.with_slot(whole, size, False, 1, gpt.Entry(40, 65, "map 15 Nov", gpt.guid(1)))
        longer = whole + gpt.card(256, size, {7: gpt.Entry(40, 41, "old", gpt.guid(7))})[len(whole):]
        neither = damaged(damaged(whole, size, True, 16), size, False, 16)
        for name in ("a b.img", "a.img"):
            does(b, name, other, ("check",), "repair", r" \[17\]", size, given)
            does(b, name, longer, ("repair",), "grow", " keeps the front's slots", size, given)
            does(b, name, longer, ("repair",), "repair --force", " the back's", size, given)
            does(b, name, neither, ("check",), "uefi", r" \[16\]", size, given, None)
            does(b, name, gpt.foreign(300, size, ENTRIES, 256, 16), ("lay",), "lay --force", "\n$", size, given)


def shown(b):
    """What show and apply advise on standard output. A plan's block size is a given one too."""
    for size, given in GIVEN:
        whole = gpt.card(128, size, ENTRIES)
        b.store("a b.img", damaged(whole, size, False, 6))
        command = in_words(b, b.run("show", "a b.img", *given).out, "repair", r" \[6\]", size, given)
        b.equal(f"{command}: does it", typed(b, command).returncode, 0)
        for plan, more in ((f"sector-size: {size}\n", ()), ("", given)):
            b.store("plan", f"{plan}1: start=40, size=26, name=\"north ridge\", file=map\n".encode())
            b.store("map", b"short")
            b.store("a b.img", damaged(whole, size, False, 6))
            if plan or given or size == 512:
                command = in_words(b, b.run("apply", "plan", "a b.img", *more).out, "repair", r"\. Nothing was changed\. \[6\]", size, plan or given)
                b.equal(f"{command}: does it", typed(b, command).returncode, 0)
                b.store("a b.img", gpt.stored(whole, 40 * size + 5, b"a longer map of yesterday"))
                command = in_words(b, b.run("apply", "plan", "a b.img", *more).out, "clear --wipe", " and then the plan again", size, plan or given)
                b.equal(f"{command}: does it", typed(b, command).returncode, 0)
                b.true("and the older bytes are gone", not any(b.bytes("a b.img")[40 * size:66 * size]))


def failed(b):
    """What is advised where writing fails in the middle."""
    if straced.missing():
        return b.not_run("advice where writing fails", straced.missing())
    for size, given in GIVEN[1:3]:
        whole, fails = gpt.card(128, size, ENTRIES), straced.injected(b.path("a b.img"), "pwrite64", "error=EIO:when=3")
        b.store("a b.img", whole)
        said = b.run("put", "a b.img", "9", "--first", "90", "--last", "91", *given, before=fails).err
        for verb, end in (("show", " says what it shows"), ("repair", " mends it")):
            b.equal(f"{verb}, as a put that failed at stage 3 advises", typed(b, in_words(b, said, verb, end, size, given)).returncode, 0)
        b.equal("and check", b.run("check", "a b.img", *given).status, 0)
        b.store("a b.img", whole + bytes(64 * size))
        said = b.run("grow", "a b.img", *given, before=fails).err
        b.equal("check, as a grow that failed advises", typed(b, in_words(b, said, "check", " says how to go on", size, given)).returncode, 1)
        b.store("a b.img", whole)
        said = b.run("lay", "--force", "a b.img", *given, before=fails).err
        b.equal("show, as a lay that failed advises", typed(b, in_words(b, said, "show", " says what it shows", size, given)).returncode, 0)


def run(b):
    if not tool("bash"):
        return b.not_run("advised commands, typed", "there is no bash")
    os.mkdir(b.path("bin"))
    b.store("bin/card", f'#!/bin/sh\nexec {shlex.join(CARD)} "$@"\n'.encode())
    os.chmod(b.path("bin/card"), 0o755)
    for test in (names, each, shown, failed):
        test(b)
