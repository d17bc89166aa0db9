#!/usr/bin/env python3
"""Keeps the documents true: every command that they give a reader is run, or it is said below why not.

The documents are all .md files, and the texts in include/ and hosts/. In an .md file a block is fenced by ```, or indented by four spaces behind an empty line or a mark:
- behind the mark `<!-- run -->` it is commands, which sh -e runs in the repository's root; the next block, behind the mark `<!-- prints -->`, is all that they print to standard output (how far a proof is goes to standard error);
- a block of the language rust is, line by line, part of the example in hosts/rust/src/lib.rs, which make rust runs;
- a block of the language text has no commands;
- in any other block each line is a command, up to a #.
Inline code, between two single backquotes on one line, is a command if it has two words or more and begins with one of COMMANDS or with a path to a program; a word alone is a name.

A command in no marked block must be a make target that tests/outside.sh runs, or stand in NOT_RUN with the reason; variables set in it do not count. Any other one fails, with
file and line, and so do a make target that the Makefile does not have and a line of NOT_RUN that no document needs.
"""
import collections
import difflib
import os
import pathlib
import re
import subprocess
import sys

os.chdir(pathlib.Path(__file__).parent.parent)
COMMANDS = """apt apt-get ar awk bash cargo cat cc cd chmod clang cmp cp curl dd diff docker dpkg echo env export fdisk gcc gdb git grep head hexdump install ld ls make mkdir mount mv nm nohup objdump
parted pip pkg-config printf python3 rm rt rustc sed sfdisk sgdisk sh sudo tail tar time touch valgrind wget xxd""".split()
NOT_RUN = {
    "make": "make scripts-test runs it",
    "make test": "it is the gate, which runs this script",
    "make gate-times": "make scripts-test runs it",
    "make deps": "it would install packages; make scripts-test runs it, with a stand-in for apt-get",
    "make bench": "it takes minutes and a quiet machine, and needs zlib's header",
    "make bench-list": "it takes minutes and a quiet machine",
    "make clean": "it would delete what was built",
    "make differential-slips": "it takes minutes",
    "make firmware": "it takes minutes, QEMU and a download; make firmware-quick runs a part of it",
    "make cuts": "it takes minutes; make cuts-quick runs a part of it",
    "tests/cuts/run.py --model": "make cuts-quick runs the program with the library",
    "make install": "make install-test runs it, into an empty folder",
    "make uninstall": "the same",
    "make deb": "make package-test runs it",
    "make dist": "the same",
    "make wheel": "make wheel-test runs it",
    "python3 -m card": "make python runs it",
    "pip install target/wheel/*.whl": "make wheel-test does so, into an empty folder",
    "cc -std=c11 -o lay lay.c $(pkg-config --cflags --libs card)": "make examples runs it, with the library below a prefix of its own",
    "cc -std=c11 -o update update.c $(pkg-config --cflags --libs card)": "the same",
    "cc -std=c11 -o list list.c $(pkg-config --cflags --libs card)": "the same",
    './lay field.img 67108864 "north ridge"': "the same",
    './update field.img 2 34 2047 "south slope"': "the same",
    "./list field.img": "the same",
    "sgdisk -u 2:R": "make interop runs it",
    "sgdisk -u SLOT:R": "the same, for slot 2",
    "sgdisk -A": "make interop runs it, with a slot and a bit",
    "sgdisk -S": "the same, with a count",
    "sgdisk -i": "the same, with a slot",
    "target/stack each": "make boundary runs the program without the word, and what it prints is read off by hand",
    "make rust-outside": "make rust runs it",
    "cargo run --release --bin tape": "make differential runs the same program, which then compares and does not write",
    "rt ci": "it is a part of the gate",
    "scripts/prove --ci": "the gate runs it behind rt ci",
    "rt ci NAME": "NAME is any crate, and proving is for rt ci",
    "rt check": "the same",
    "rt check --allow-holes": "the same",
    "rt check --generated DIR": "the same",
    "rt lib": "the same",
    "rt doc": "it prints a place on the machine",
    "rt selftest": "it proves crates of the kit, in a folder of its own",
    "rt version": "it prints the kit's name, and another kit is no error of a document",
}
MARKS = {"<!-- run -->": "run", "<!-- prints -->": "prints"}
TARGETS = re.findall(r"^([a-z][a-z-]*):", pathlib.Path("Makefile").read_text(), re.M)
STEPS = re.findall(r"^run ([a-z-]+) ", pathlib.Path("tests/outside.sh").read_text(), re.M)
EXAMPLE = [line[4:] for line in pathlib.Path("hosts/rust/src/lib.rs").read_text().splitlines() if line.startswith("//!")]

problems = []
accounted = []


def problem(where, what):
    problems.append(f"documents: {where}: {what}")


def documents():
    for pattern in ("**/*.md", "include/*", "hosts/**/*.rs", "hosts/**/*.py", "hosts/**/*.toml"):
        yield from sorted(path for path in pathlib.Path(".").glob(pattern) if "target" not in path.parts)


def account(where, words):
    """A command that no marked block runs."""
    targets = words[1:] if words[0] == "make" else []
    missing = [target for target in targets if target not in TARGETS]
    if missing:
        problem(where, f"`{' '.join(words)}`: the Makefile has no target {missing[0]}")
    elif " ".join(words) not in NOT_RUN and not (targets and set(targets) <= set(STEPS)):
        problem(where, f"`{' '.join(words)}`: no marked block and no step of tests/outside.sh runs it, and NOT_RUN does not say why")
    accounted.append(" ".join(words))


def words_of(text):
    return [word for word in text.split() if not re.match(r"[A-Z_]+=", word)]


def inline(where, line):
    if line.count("`") % 2 or "``" in line:
        problem(where, "inline code that is not between two single backquotes on one line")
    for words in map(words_of, re.findall(r"`([^`]+)`", line)):
        if len(words) > 1 and (words[0] in COMMANDS or re.match(r"(\.|target|tests|hosts|scripts)/", words[0])):
            account(where, words)


def unmarked(kind, lines):
    """A block that is neither run nor printed."""
    example = iter(EXAMPLE)
    for where, line in lines:
        words = words_of(re.split(r"(?:^| +)#", line)[0])
        if kind == "rust" and line and line not in example:
            problem(where, "the example in hosts/rust/src/lib.rs does not have this line, or has it elsewhere")
            break
        if kind not in ("rust", "text") and words:
            account(where, words)


def blocks(path):
    """The blocks of an .md file: the place, the mark or the language, and each line with its place. What stands outside is looked through for inline code."""
    lines = collections.deque((f"{path}:{number}", line) for number, line in enumerate(path.read_text().splitlines(), 1))
    mark = before = ""
    while lines:
        where, line = lines.popleft()
        inside = []
        if line.startswith("```"):
            while lines and not lines[0][1].startswith("```"):
                inside.append(lines.popleft())
            lines.popleft() if lines else problem(where, "a fence that is not shut")
            yield where, mark or line[3:], inside
        elif line.startswith("    ") and (mark or not before):
            inside.append((where, line[4:]))
            while lines and lines[0][1].startswith("    "):
                inside.append((lines[0][0], lines.popleft()[1][4:]))
            yield where, mark, inside
        elif line.startswith("<!--") and (mark or line not in MARKS) or line and mark:
            problem(where, "a mark that is not understood, or that no block follows")
        else:
            inline(where, line)
        mark = MARKS.get(line, "" if line else mark)
        before = line


def marked(path):
    """The blocks of an .md file that are run, each with what it prints."""
    commands = None
    for where, kind, lines in blocks(path):
        texts = [line for _, line in lines]
        if (kind == "prints") != bool(commands):
            problem(where, "a block that is run and the block of what it prints do not follow each other")
        elif kind == "prints":
            yield *commands, texts
        elif kind != "run":
            unmarked(kind, lines)
        commands = (where, texts) if kind == "run" else None
    if commands:
        problem(commands[0], "what this block prints does not follow")


def run(where, commands, prints):
    environment = {name: value for name, value in os.environ.items() if name not in ("MAKEFLAGS", "MFLAGS", "MAKELEVEL")}
    # The documents say where the command card is, and how a shell finds it.
    environment["PATH"] = f"{os.getcwd()}/target/card:{environment['PATH']}"
    done = subprocess.run(["sh", "-ec", "\n".join(commands)], stdin=subprocess.DEVNULL, capture_output=True, text=True, env=environment)
    said = done.stdout.splitlines()
    if done.returncode:
        problem(where, f"the commands fail, with exit status {done.returncode}\n{done.stdout}{done.stderr}")
    elif said != prints:
        problem(where, "\n".join(["the commands print another text", *difflib.unified_diff(prints, said, "the document", "printed", lineterm="")]))


def main():
    pairs = []
    for path in documents():
        if path.suffix == ".md":
            pairs += marked(path)
        else:
            for number, line in enumerate(path.read_text().replace("```", "").splitlines(), 1):
                inline(f"{path}:{number}", line)
    for command in NOT_RUN:
        if command not in accounted:
            problem("NOT_RUN", f"no document gives `{command}`")
    for pair in pairs:
        if not problems:
            run(*pair)
    print("\n".join(problems) or f"documents: {len(pairs)} blocks print what the documents say, {len(accounted)} other commands are accounted for")
    return 1 if problems or not pairs else 0


if __name__ == "__main__":
    sys.exit(main())
