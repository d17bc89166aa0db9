#!/usr/bin/env python3
"""Asks more of the edits that must fail than rt does, which asks that the crate is refused.

- Each was refused for what a contract says: rt names those that it could not try, and those that it refused only because a proof file names what the edit
  took away. This reads what rt ci said, target/ci.log.
- Each function that an edit changes is refused by itself, and not for the sake of another one that it calls, nor for names: an edit that changes a test's
  words also renames the goals behind it, and then its proof falls whatever the edit means. rt does not say so, so each edit of functions is tried again here
  on these alone, over the libraries that rt ci or rt has left in crates/*/out.

edits.py             what the gate runs behind rt ci; it is skipped where there is no target/ci.log
edits.py CRATE..     the second of these alone, on the edits of these crates, which it has rt check first
"""
import concurrent.futures
import os
import pathlib
import re
import shutil
import subprocess
import sys
import tempfile

ROOT = pathlib.Path(__file__).resolve().parent.parent
os.chdir(ROOT)
LOG = pathlib.Path("target/ci.log")
# What rt says of an edit that shows little or nothing of a contract.
WEAK = ("BAD EDIT", "NOT REFUSED", "NOT TRIED", "(only because a proof file", "(only by a limit")
# An error in a proof file that names what is no longer there.
NAMES = re.compile(r"has no field|is not in scope|has no `|was not admitted")


def pairs(edit):
    """The file, the old and the new text of each change."""
    file = old = None
    for line in edit.read_text().split("\n"):
        if line.startswith("file: "):
            file = line[6:]
        elif line.startswith("old: "):
            old = line[5:]
        elif line.startswith("new:"):
            yield file, old, line[5:]


def function_at(file, text, at):
    """The path of the function in which a line of a source file stands, as rattle has it, with its first line and the one behind its last."""
    modules = [] if file in ("src/lib.rt", "src/main.rt") else re.sub(r"^src/|(/mod)?\.rt$", "", file).split("/")
    lines, within, found = text.split("\n"), [], None
    for number, line in enumerate(lines):
        impl = re.match(r"(?:unsafe )?impl(?:<[^{]*?>)? (?:([\w:<>, ()]+) for )?([\w:]+)", line)
        if impl:
            # (rattle names an impl of a trait by the type and then the trait's words)
            words = [word.split("::")[-1] for word in re.findall(r"[\w:]+", (impl[1] or "").replace("()", "Unit"))]
            within = ["".join(word[0].upper() + word[1:] for word in [impl[2].split("::")[-1], *words])]
        elif line.startswith("}"):
            within = []
        name = re.match(r" *(?:pub(?:\([\w ]+\))? )?(?:const )?(?:unsafe )?(?:extern \"C\" )?fn (\w+)", line)
        if name and number > at:
            break
        if name:
            found = [*modules, *within, name[1]], number + 1
    return ("::".join(found[0]), found[1], number + 1) if found else None


def apply(edit, folder):
    """Applies an edit to a copy of its crate, and gives the functions that it changes, with their file and lines in the changed text."""
    places = []
    for file, old, new in pairs(edit):
        text = (folder / file).read_text()
        if text.count(old) != 1:
            raise ValueError(f"the text stands {text.count(old)} times in {file}: {old}")
        (folder / file).write_text(text.replace(old, new))
        if file.startswith("src/"):
            # (one line for one line, so the others stay where they are)
            places.append((file, text.count("\n", 0, text.index(old))))
    found = {}
    for file, at in places:
        function = function_at(file, (folder / file).read_text(), at)
        if function:
            found[function[0]] = (file, *function[1:])
    return found


def refused(name, function, place, said):
    """Whether what the check said refuses this function by itself, and not for its shape.

    A proof that names what is no longer there, or a form that no proof covers, says nothing of what the code does.
    """
    file, first, last = place
    line = next((it for it in said if it.startswith(f"fn {name}::{function}: ")), "")
    if not line or line.startswith(f"fn {name}::{function}: proved") or "borrow checker does not cover" in line:
        return False
    # An open goal of a function that has no proof of its own is told in its line alone.
    own = "` did not prove `" in line
    proof = False
    for it in said:
        of = re.match(r"(note: )?(?:\./)?(\S+?):(\d+):\d+: (error\b)?", it)
        if of:
            proof = bool(of[4]) and of[2].replace("/+", "/").startswith(f"proofs/{function.replace('::', '/')}/")
            own = own or proof or bool(of[1] or of[4]) and of[2] == file and first <= int(of[3]) < last
        elif not it.startswith("  "):
            proof = False
        # (the words of an error go on in the lines that are set in)
        if proof and NAMES.search(it):
            return False
    return own


def tried(edit):
    """What is wrong with an edit of functions, and how many it changes."""
    name = edit.parts[1]
    with tempfile.TemporaryDirectory() as room:
        folder = pathlib.Path(room) / name
        shutil.copytree(f"crates/{name}", folder, ignore=shutil.ignore_patterns("out"))
        try:
            functions = apply(edit, folder)
        except ValueError as error:
            return [f"edits: {edit}: {error}"], 0
        if not functions:
            return [], 0
        flags = [word for function in functions for word in ("--only", function)]
        ran = subprocess.run(["scripts/rattle", "check", folder, "--jobs", "1", *flags], stdout=subprocess.PIPE, stderr=subprocess.STDOUT, stdin=subprocess.DEVNULL, text=True, errors="replace")
        said = ran.stdout.split("\n")
        if not any(it.startswith("only=") for it in said):
            return [f"edits: {edit}: nothing was checked: {' '.join(said)[:300]}"], len(functions)
        return [f"edits: {edit}: {function} is not refused by itself" for function, place in functions.items() if not refused(name, function, place, said)], len(functions)


def ready(crates):
    """Has rt make the libraries below these crates those of the sources."""
    for name in crates:
        ran = subprocess.run(["rt", "check"], cwd=f"crates/{name}", stdout=subprocess.PIPE, stderr=subprocess.STDOUT, stdin=subprocess.DEVNULL, text=True, errors="replace")
        if ran.returncode:
            sys.exit(f"{ran.stdout}edits: {name} is not proved")


def main():
    edits = sorted(pathlib.Path(".").glob("crates/*/must-fail/*.edit"))
    problems = []
    if len(sys.argv) > 1:
        edits = [it for it in edits if it.parts[1] in sys.argv[1:]]
        ready(sys.argv[1:])
    elif LOG.exists():
        said = dict(re.findall(r"^rt: must-fail (\S+): (.*)", LOG.read_text(errors="replace"), re.M))
        for it in edits:
            label = f"{it.parts[1]}/{it.name}"
            weak = next((word for word in WEAK if word in said.get(label, "")), None)
            if label not in said:
                problems.append(f"edits: {label} was not tried")
            elif weak:
                problems.append(f"edits: {label}: {said[label]}")
        if subprocess.run(["scripts/rattle", "left"]).returncode:
            ready(sorted({it.parts[1] for it in edits}))
    else:
        print("no edit was tried: rt ci tries them")
        print("edits: skipped, nothing to read")
        return 0
    with concurrent.futures.ThreadPoolExecutor(os.cpu_count()) as pool:
        results = list(pool.map(tried, edits))
    for found, _ in results:
        problems += found
    counts = [count for _, count in results]
    print("\n".join(problems + ["edits: none was tried"] * (not edits)) if problems or not edits else f"edits: {len(edits)} tried, and each of the {sum(counts)} functions that they change is refused by itself and for what it does")
    return 1 if problems or not edits else 0


if __name__ == "__main__":
    sys.exit(main())
