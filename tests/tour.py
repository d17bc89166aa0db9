#!/usr/bin/env python3
"""Keeps docs/TOUR.md true: each stop, a file with a line and then a text, has that text on that line; and docs/crates.svg is what crates.txt gives.

tour.py          says what is not so, and ends with status 1
tour.py --mend   writes the right lines and the picture; a text must stand on one line of its file alone
"""
import os
import pathlib
import re
import sys

os.chdir(pathlib.Path(__file__).parent.parent)
TOUR = pathlib.Path("docs/TOUR.md")
PICTURE = pathlib.Path("docs/crates.svg")
STOP = re.compile(r"`([\w./-]+):(\d+)` `([^`]+)`")
WIDE, HIGH, ROW = 118, 26, 62


def line_of(path, text):
    """The one line of a file on which a text stands; a list of them where it is not one."""
    lines = [i for i, line in enumerate(pathlib.Path(path).read_text().splitlines(), 1) if text in line]
    return lines[0] if len(lines) == 1 else lines


def stops(text, wrong):
    """The text with the right lines."""
    def mended(found):
        path, line, words = found.groups()
        right = line_of(path, words)
        if not isinstance(right, int):
            wrong.append(f"{path} has {words!r} on {len(right)} lines, not on one")
            return found.group()
        if right != int(line):
            wrong.append(f"{path}: {words!r} is on line {right}, not {line}")
        return f"`{path}:{right}` `{words}`"
    return STOP.sub(mended, text)


def crates():
    """Each crate of crates.txt with those that it uses directly, and not by way of another one."""
    uses = {}
    for line in pathlib.Path("crates.txt").read_text().splitlines():
        if ":" in line and not line.startswith("#"):
            name, below = re.sub(" .*:", ":", line).split(":")
            uses[name] = set(below.split())
    mine = {name: {other for other in below if other in uses} for name, below in uses.items()}
    above = {name: set().union(*(mine[other] for other in below)) if below else set() for name, below in mine.items()}
    return {name: sorted(below - above[name]) for name, below in mine.items()}


def depth(name, uses, known):
    if name not in known:
        known[name] = 1 + max((depth(other, uses, known) for other in uses[name]), default=-1)
    return known[name]


def picture():
    """The crates in rows, each row above those that it stands on."""
    uses, known = crates(), {}
    rows = {}
    for name in uses:
        rows.setdefault(depth(name, uses, known), []).append(name)
    most = max(len(row) for row in rows.values())
    width, height = most * (WIDE + 12) + 12, (max(rows) + 1) * ROW + 12
    at = {}
    for level, row in rows.items():
        gap = (width - len(row) * WIDE) / (len(row) + 1)
        for i, name in enumerate(sorted(row)):
            at[name] = (gap + i * (WIDE + gap), height - (level + 1) * ROW)
    out = [f'<svg xmlns="http://www.w3.org/2000/svg" width="{width}" height="{height}" font-family="sans-serif" font-size="11">', f'<rect width="{width}" height="{height}" fill="#fff"/>']
    for name, below in uses.items():
        for other in below:
            (x, y), (u, v) = at[name], at[other]
            out.append(f'<line x1="{x + WIDE / 2:.0f}" y1="{y + HIGH:.0f}" x2="{u + WIDE / 2:.0f}" y2="{v:.0f}" stroke="#9ab"/>')
    for name, (x, y) in at.items():
        colour = "#eee" if name.startswith("doors") else "#dcebff"
        out.append(f'<rect x="{x:.0f}" y="{y:.0f}" width="{WIDE}" height="{HIGH}" rx="4" fill="{colour}" stroke="#456"/>')
        out.append(f'<text x="{x + WIDE / 2:.0f}" y="{y + 17:.0f}" text-anchor="middle">{name}</text>')
    return "\n".join(out + ["</svg>", ""])


def main():
    wrong = []
    text = TOUR.read_text()
    mended, drawn = stops(text, wrong), picture()
    if not PICTURE.exists() or PICTURE.read_text() != drawn:
        wrong.append(f"{PICTURE} is not what crates.txt gives")
    if "--mend" in sys.argv[1:]:
        TOUR.write_text(mended)
        PICTURE.write_text(drawn)
    for words in wrong:
        print(f"tour: {words}")
    count = len(STOP.findall(text))
    if not wrong and count:
        print(f"tour: {count} stops and the picture are right")
    return 1 if wrong or not count else 0


sys.exit(main())
