#!/usr/bin/env python3
"""Compares what every reader showed with card.listing: report.py WORK [--accept]. Writes WORK/RESULTS.md and WORK/answers.tsv, and compares the latter with expected.tsv.

An answer is `old` or `new` (exactly that table, in every field that the reader shows), `good` (the card's one table), `none` (no partition, or no GPT), `third` (something else).
"""
import json
import os
import pathlib
import re
import sys

sys.path.insert(1, str(pathlib.Path(__file__).resolve().parents[2] / "hosts" / "python"))
import card  # noqa: E402

COLUMNS = [("kernel", "Linux"), ("kernel-gpt", "Linux, `gpt`"), ("ovmf", "OVMF"), ("ovmf-wrote", "OVMF wrote"), ("ovmf-locked", "OVMF, locked card"), ("uboot", "U-Boot"),
           ("blkid", "blkid -p"), ("partx", "partx"), ("sfdisk", "sfdisk"), ("parted", "parted"), ("sgdisk", "sgdisk"), ("grub", "GRUB"), ("mmls", "mmls")]


def classify(answer, state):
    table, old, new = answer["table"], state["old"], state["new"]
    if table is None:
        return answer["label"] or "none"
    keys = set().union(*(set(row) for row in table)) if table else {"slot"}

    def cut(rows):
        return [{k: row[k] for k in keys} for row in rows]

    if not table and not (answer.get("label") or answer.get("parsed")):
        return "none" if old else "empty"  # of an empty card some readers show nothing that would tell these apart
    if table == cut(old) == cut(new):
        return "good"
    if table == cut(old):
        return "old"
    if table == cut(new):
        return "new"
    return "third" if table else "none"


def regions(before, after, b):
    """Which parts of the card differ."""
    n, per = len(before) // b, 16384 // b
    parts = {"MBR": (0, 1), "front header": (1, 2), "front array": (2, 2 + per), "usable blocks": (2 + per, n - per - 1), "back array": (n - per - 1, n - 1), "back header": (n - 1, n)}
    found = [name for name, (a, z) in parts.items() if before[a * b:z * b] != after[a * b:z * b]]
    return found + (["tail"] if before[n * b:] != after[n * b:] else [])


def main(work, *options):
    here = os.path.dirname(os.path.abspath(__file__))
    states = json.load(open(os.path.join(work, "states.json")))
    loaded = {}
    for name, _ in COLUMNS:
        path = os.path.join(work, name + ".json")
        if os.path.exists(path):
            loaded[name] = json.load(open(path))
    answers = {}  # (state id, column) -> text
    for name, data in loaded.items():
        for s in states:
            if s["id"] in data["answers"]:
                answers[s["id"], name] = classify(data["answers"][s["id"]], s)
    wrong = []
    for name in ("ovmf", "ovmf-locked", "uboot"):
        if name not in loaded:
            continue
        for s in states:
            path = os.path.join(work, name, s["id"] + ".img")
            if not os.path.exists(path):
                continue
            before, after = (bytearray(open(p, "rb").read()) for p in (os.path.join(work, "cards", s["id"] + ".img"), path))
            wrote = regions(before, after, s["b"])
            if name != "ovmf":
                if wrote:
                    wrong.append(f"{name} wrote {wrote} of {s['id']}")
                continue
            try:
                table = [dict(slot=e.slot, first=e.record.first, last=e.record.last, guid=str(e.record.guid), type=str(e.record.type), name=e.record.name) for e in card.listing(after, s["b"])]
                verdict = "card is " + classify(dict(table=table, parsed=True), s)
            except card.Refused as refused:
                verdict = f"check {refused.number}"
            answers[s["id"], "ovmf-wrote"] = (" + ".join(wrote) or "nothing") + ": " + verdict
            if wrote and verdict != "card is good":
                # a repaired card is, byte for byte, the whole one
                whole = {"old": "cut 0", "new": "cut 4"}.get(verdict[len("card is "):])
                twin = next((t for t in states if t["b"] == s["b"] and whole and t["state"] == re.search(r"put|replace|clear", s["state"] + " put")[0] + " " + whole), None)
                if not twin or open(os.path.join(work, "cards", twin["id"] + ".img"), "rb").read() != after:
                    answers[s["id"], "ovmf-wrote"] += ", other bytes than the plain call's"
            elif wrote:
                twin = next(t for t in states if t["b"] == s["b"] and t["state"] == "put cut 0")
                if open(os.path.join(work, "cards", twin["id"] + ".img"), "rb").read() != after:
                    answers[s["id"], "ovmf-wrote"] += ", other bytes than before the damage"

    used = [(name, title) for name, title in COLUMNS if any(key[1] == name for key in answers)]
    lines = []
    for s in states:
        for name, _ in used:
            if (s["id"], name) in answers:
                lines.append(f"{s['b']}\t{s['state']}\t{name}\t{answers[s['id'], name]}")
    with open(os.path.join(work, "answers.tsv"), "w") as f:
        f.write("\n".join(lines) + "\n")

    # the table: the three changes and the two block sizes in one row where they agree
    groups = {}
    for s in states:
        row = re.sub(r"^(put|replace|clear) ", "", s["state"]) if s["group"] in ("cut", "repair") else s["state"]
        groups.setdefault((s["group"], row), []).append(s)
    out = []
    for group, title in (("good", "Whole cards"), ("cut", "A staged put, replacing put or clear, cut after so many stages"), ("repair", "Request 6/13's repair, cut after a stage"), ("order", "Not our order: front array, front header, back array, back header, cut after so many"),
                         ("damage", "Damaged cards")):
        out += [f"\n## {title}\n", "| state | card check | " + " | ".join(t for _, t in used) + " |", "|---" * (len(used) + 2) + "|"]
        for (g, row), members in groups.items():
            if g != group:
                continue
            cells = [",".join(str(n) for n in sorted({s["check"] for s in members}))]
            for name, _ in used:
                seen = {}
                for s in members:
                    seen.setdefault(answers.get((s["id"], name)), []).append(s)
                seen.pop(None, None)
                if len(seen) <= 1:
                    cells.append(next(iter(seen), "not run"))
                else:
                    cells.append("; ".join(f"{a} ({', '.join(sorted({str(s['b']) + ' ' + s['state'].split()[0] for s in m}))})" for a, m in seen.items()))
            out.append(f"| {row} | " + " | ".join(cells) + " |")
    counts = len(answers)
    thirds = [line for line in lines if line.endswith("third")]
    out += ["\n## What the readers said\n"]
    for name, title in used:
        if name not in loaded:
            continue
        said = {}
        for s in states:
            a = loaded[name]["answers"].get(s["id"])
            if a and s["b"] == 512 and s["state"] in ("put cut 0", "put cut 1", "put cut 2", "put cut 3", "put cut 4", "front header zeroed", "back header zeroed", "MBR zeroed"):
                text = "; ".join(dict.fromkeys(re.sub(r"\S*/s\d+\.img", "CARD", x) for x in a["said"]))
                if text:
                    said.setdefault(text, []).append(s["state"])
        for text, which in said.items():
            out.append(f"- {title}, {', '.join(which)}: {text}")
    head = ["# What other readers make of the cards\n", f"{len(states)} cards, {counts} answers. Written by report.py; the words are explained in README.md.\n", "Readers:\n"]
    versions = open(os.path.join(work, "versions.txt")).read().splitlines() if os.path.exists(os.path.join(work, "versions.txt")) else []
    head += [f"- {v}" for v in versions]
    for name, data in loaded.items():
        if "seconds" in data:
            head.append(f"- {data['reader']}: {data.get('version', '')} {data['seconds']:.0f} s in QEMU".replace(":  ", ": "))
    with open(os.path.join(work, "RESULTS.md"), "w") as f:
        f.write("\n".join(head + out) + "\n")

    expected = os.path.join(here, "expected.tsv")
    if "--accept" in options:
        with open(expected, "w") as f:
            f.write("\n".join(lines) + "\n")
    differ = 0
    if os.path.exists(expected):
        want = dict(line.rsplit("\t", 1) for line in open(expected).read().splitlines())
        have = dict(line.rsplit("\t", 1) for line in lines)
        for key, answer in have.items():
            if want.get(key) != answer:
                differ += 1
                print(f"differs: {key}: {answer}, expected {want.get(key)}")
        missing = {key.split("\t")[2] for key in want} - {key.split("\t")[2] for key in have}
        for name in sorted(missing):
            print(f"skipped: {name}")
    for text in wrong:
        print("wrong:", text)
    print(f"firmware: {len(states)} cards, {counts} answers, {len(thirds)} of a third table, {differ + len(wrong)} other than expected")
    return 1 if differ or wrong else 0


if __name__ == "__main__":
    raise SystemExit(main(*sys.argv[1:]))
