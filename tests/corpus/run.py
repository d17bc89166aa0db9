#!/usr/bin/env python3
"""Runs every image of the corpus through every reader and check, and compares what each says with index.tsv.

The model of tests/model, which was written from the documents, and the library answer on the image and over windows; then the command card, the Python module, the Rust original where they were built, and other
makers' tools where the machine has them. `run.py NAME..` asks of these images alone; `run.py rows` prints the model's row of each image that index.tsv does not have yet, for the documents to be read beside it. It ends with 1 after a line for each difference, and where no image has such a name.
"""
import os
import pathlib
import struct
import sys
import tempfile

HERE = pathlib.Path(__file__).resolve().parent
ROOT = HERE.parents[1]
sys.path.insert(1, str(ROOT / "tests" / "model"))
import ends  # noqa: E402
import library  # noqa: E402
import model  # noqa: E402
import readers  # noqa: E402
import recipes  # noqa: E402
from units import ALL_64  # noqa: E402

COLUMNS = "name size check reader first second repair screen list what".split()
PLACES = {1: " front", 2: " back", 3: " disk GUID"}
ROWS = bytes(136 * 300)
RUNS = bytes(8 * 129)
# Calls with their arguments after the block size: the model's answer and the library's are compared whole, with every lent byte.
READ = {
    "card_check": (), "card_count_used": (), "card_next_used": (0,), "card_read_slot": (1,), "card_nth_used": (0,), "card_list": (ROWS,), "card_free_runs": (RUNS, RUNS), "card_map_make": (), "card_read_label": (1,),
    "card_payload_place": (1, 0, 13), "card_reader_copy": (), "card_reader_count": (), "card_reader_next": (0,), "card_reader_slot": (1,), "card_reader_list": (ROWS,), "card_start_repair": (), "card_start_clear": (1,),
    "gpt_read_primary_header": (), "gpt_read_backup_header": (), "gpt_uefi_read_primary_header": (), "gpt_uefi_read_backup_header": (), "gpt_uefi_count_primary": (), "gpt_uefi_count_backup": (),
    "gpt_uefi_list_primary": (ROWS,), "gpt_uefi_list_backup": (ROWS,), "gpt_mbr_from_image": (),
}


def number(answer):
    return answer[0]


def used_or_refused(answer):
    return f"used {answer[1][0]}" if number(answer) == 0 else f"refused {number(answer)}"


def first_edition(calls, image, b, table):
    """Header and array of one table by the ported calls: what the Rust original does."""
    header = calls[f"gpt_read_{table}_header"](image, b)
    return used_or_refused(calls["gpt_count_partitions"](image, header[1][0], b)) if number(header) == 0 else f"refused {number(header)}"


def checked(answer):
    """The check's number and place."""
    place, slot = answer[3]
    return f"{number(answer)}{f' slot {slot}' if place == 4 else PLACES.get(place, '')}"


def repaired(calls, image, b):
    """The first two stages of a repair: which table it mends, and both numbers."""
    one = calls["card_start_repair"](image, b)
    if number(one):
        return f"refused {number(one)}"
    state = one[1][1]
    two = calls["card_next_repair"](one[2][0], b, 2, state)
    return f"{'front' if state.back else 'back'} 0 {number(two)}"


def screen(calls, image, b):
    """The judgement of all slots that the card's reader shows; - where it shows none."""
    out = calls["card_reader_list"](image, b, ROWS)
    slots = [struct.unpack_from("<Q", out[2][1], 136 * k)[0] for k in range(out[1][0])] if number(out) == 0 else []
    if not slots:
        return "-"
    answer = calls["card_judge"](image, b, struct.pack(f"<{len(slots)}I", *slots))
    slot, year, month, day, style = answer[1] if number(answer) == 0 else (*answer[1], 0, 0, 0, 0)[:5]
    return f"{year:04}-{month:02}-{day:02} style {style}" if number(answer) == 0 else f"{number(answer)}{f' slot {slot}' if slot else ''}"


def said(calls, image, b):
    """The columns of the index that calls answer."""
    copy = calls["card_reader_copy"](image, b)
    return {
        "check": checked(calls["card_check"](image, b)),
        "reader": ("back" if copy[1][0] else "front") if number(copy) == 0 else f"refused {number(copy)}",
        "first": "; ".join(first_edition(calls, image, b, table) for table in ("primary", "backup")),
        "second": "; ".join(used_or_refused(calls[f"gpt_uefi_count_{table}"](image, b)) for table in ("primary", "backup")),
        "repair": repaired(calls, image, b),
        "screen": screen(calls, image, b),
        "list": used_or_refused(calls["card_count_used"](image, b)),
    }


def index():
    """The rows of index.tsv, by name."""
    lines = (HERE / "index.tsv").read_text().splitlines()
    if lines[0].split("\t") != COLUMNS:
        sys.exit(f"corpus: index.tsv does not begin with the columns {' '.join(COLUMNS)}")
    rows = [dict(zip(COLUMNS, line.split("\t"), strict=True)) for line in lines[1:]]
    if sorted(row["name"] for row in rows) != sorted(recipes.names()):
        sys.exit(f"corpus: index.tsv and the images differ: {sorted({row['name'] for row in rows} ^ set(recipes.names()))}")
    return rows


class Judge:
    """Counts what was compared, and keeps what differs."""

    def __init__(self):
        self.compared, self.problems = 0, []

    def same(self, name, who, got, want):
        self.compared += 1
        if got != want:
            self.problems.append(f"corpus: {name}: {who} says {got}, and not {want}")


def calls_on(judge, row, image, calls):
    """The model and the library, on the image and over windows, beside the index and beside each other."""
    name, b = row["name"], int(row["size"])
    for who, asked in (("the model", model.CALLS), ("the model over windows", ends.over_windows(model.CALLS)), ("the library", calls), ("the library over windows", ends.over_windows(calls))):
        for column, text in said(asked, image, b).items():
            judge.same(name, f"{who} ({column})", text, row[column])
    for call, rest in READ.items():
        judge.same(name, f"the library's {call}", calls[call](image, b, *rest), model.CALLS[call](image, b, *rest))
    for wild in (0, 1, 511, 4608 - b, ALL_64):
        judge.same(name, f"the library's card_check with blocks of {wild} bytes", calls["card_check"](image, wild), model.CALLS["card_check"](image, wild))


def listing(image, b):
    """What the model lists of a whole card: slot, first and last block."""
    out = model.CALLS["card_list"](image, b, ROWS)
    return [struct.unpack_from("<Q32xQQ", out[2][1], 136 * k) for k in range(out[1][0])] if number(out) == 0 else None


def main():
    if sys.argv[1:] == ["rows"]:
        known = (HERE / "index.tsv").read_text() if (HERE / "index.tsv").exists() else ""
        for name in recipes.names():
            b = 4096 if "4096" in name and "entries" not in name or name == "other-header-4096" else 512
            if f"\n{name}\t" not in known:
                print("\t".join([name, str(b), *said(model.CALLS, recipes.image_of(name), b).values(), "?"]))
        return 0
    rows = [row for row in index() if not sys.argv[1:] or row["name"] in sys.argv[1:]]
    if not rows:
        sys.exit("corpus: no image has such a name")
    judge, calls = Judge(), library.load(os.environ.get("CARD_LIBRARY") or ROOT / "target" / "lib" / "libcard.so")
    with tempfile.TemporaryDirectory() as folder:
        for row in rows:
            image = recipes.image_of(row["name"])
            calls_on(judge, row, image, calls)
            pathlib.Path(folder, row["name"] + ".img").write_bytes(image)
        there = readers.programs(judge, rows, folder, {row["name"]: listing(recipes.image_of(row["name"]), int(row["size"])) for row in rows})
    print("\n".join(judge.problems) or f"corpus: {len(rows)} images, {judge.compared} answers of the model, the library{''.join(', ' + name for name in there)}: as they must be")
    return 1 if judge.problems else 0


if __name__ == "__main__":
    sys.exit(main())
