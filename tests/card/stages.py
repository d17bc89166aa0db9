"""Updates and repairs that stop in the middle: --stop-after of put, clear and repair, what show says then, and what repair makes of it."""
import gpt
from bench import like
from check import WORDS, damaged

OLD = {1: gpt.Entry(34, 37, "map 14 Nov", gpt.guid(1)), 6: gpt.Entry(38, 39, "roads", gpt.guid(6))}
NEW = {**OLD, 1: gpt.Entry(34, 37, "map 15 Nov", gpt.guid(1))}
LAID = {s: e for s, e in OLD.items() if s != 1}
PUT = ("put", "a.img", "1", "--first", "34", "--last", "37", "--name", "map 15 Nov", "--guid", gpt.guid(1))


def after(old, new, size, slot, stage):
    """The image after so many stages: the back array's block, the back header, the front array's block, the front header."""
    (front, front_array), (back, back_array) = (gpt.places(len(old), size, f) for f in (True, False))
    block = 128 * (slot - 1) // size * size
    for place in (back_array + block, back, front_array + block, front)[:stage]:
        old = gpt.stored(old, place, new[place:place + size])
    return old


def shows(b, size, table, entries, verdict):
    """What show says: the table, the list, the verdict of the check."""
    done = b.run("show", "a.img", "-b", size)
    lines = done.out.splitlines() or [""]
    b.equal("show: status", (done.status, done.err), (0, ""))
    b.equal("show: first line", lines[0], f"the reader takes the {table} table")
    b.equal("show: the list", gpt.listed(lines[1:]), [gpt.row(s, e, size) for s, e in entries.items()])
    b.equal("show: the line `used`", lines[-2:-1], [f"used {len(entries)} of 128"])
    b.equal("show: last line", lines[-1], verdict)


def update(b, size, words, line, old, new, slot):
    """One update, stopped after each stage, shown and repaired."""
    before, behind = gpt.card(128, size, old, fill=0xA5), gpt.card(128, size, new, fill=0xA5)
    verdicts = {1: like(f"the check refuses the card: {{..}}{WORDS[6]}{{..}} [6]"), 2: like("the check refuses the card: {..}the two tables differ{..} [17]"),
                3: like(f"the check refuses the card: {{..}}{WORDS[6]}{{..}} [6]"), 4: "the check accepts the card"}
    whole = 16384 // size + 2
    for stage in (1, 2, 3, 4):
        b.store("a.img", before)
        shown = "old" if stage < 3 else "new"
        b.says((*words, "-b", size, "--stop-after", stage), line if stage == 4 else f"stopped after stage {stage} of 4, as asked: the reader shows the {shown} table\n")
        b.true(f"{words[0]} --stop-after {stage}: the bytes", b.bytes("a.img") == after(before, behind, size, slot, stage))
        shows(b, size, "back" if stage == 3 else "front", old if stage < 3 else new, verdicts[stage])
        good, bad = ("back", "front") if stage == 3 else ("front", "back")
        b.says(("repair", "a.img", "-b", size), "nothing to repair: the check accepts the card\n" if stage == 4 else f"{bad} table repaired from the {good}: {whole} blocks stored\n")
        b.true(f"{words[0]} --stop-after {stage}, repair: the bytes", b.bytes("a.img") == (before if stage < 3 else behind))
        b.equal("and check", b.run("check", "a.img", "-b", size).status, 0)


def updates(b):
    for size in (512, 4096):
        line = f'slot 1 put: blocks 34 to 37 ({gpt.words(4 * size)}), type data, GUID {gpt.guid(1)}, "map 15 Nov"\n'
        held = f'; it held "map 14 Nov", blocks 34 to 37 ({gpt.words(4 * size)})\n'
        update(b, size, PUT, line.replace("\n", held), OLD, NEW, 1)
        update(b, size, PUT, line, LAID, {1: NEW[1], **LAID}, 1)
        clear = "slot 6 cleared: its entry is gone from both tables, its bytes (blocks 38 to 39) are still on the card\n"
        update(b, size, ("clear", "a.img", "6"), clear, OLD, {1: OLD[1]}, 6)
        high = {**OLD, 128: gpt.Entry(40, 40, "end", gpt.guid(128))}
        update(b, size, ("put", "a.img", "128", "--first", "40", "--last", "40", "--name", "end", "--guid", gpt.guid(128)),
               f'slot 128 put: blocks 40 to 40 ({size if size == 512 else 4} {"B" if size == 512 else "KiB"}), type data, GUID {gpt.guid(128)}, "end"\n', OLD, high, 128)


def repairs(b):
    """One damaged table, repaired to the end and by each number of stages."""
    for size in (512, 4096):
        whole, stages = gpt.card(128, size, OLD, fill=0xA5), 16384 // size + 2
        for front in (True, False):
            bad, good = ("front", "back") if front else ("back", "front")
            for number in (4, 5, 6, 16):
                b.store("a.img", damaged(whole, size, front, number))
                b.says(("repair", "a.img", "-b", size), f"{bad} table repaired from the {good}: {stages} blocks stored\n")
                b.true(f"repair of {number}: the bytes", b.bytes("a.img") == whole)
                b.says(("repair", "a.img", "-b", size), "nothing to repair: the check accepts the card\n")
            head, array = gpt.places(len(whole), size, front)
            lost = gpt.stored(gpt.stored(whole, head, b"\x5a" * size), array, b"\x5a" * 16384)
            for stage in range(1, stages + 1) if size == 4096 else (1, 2, 3, 20, 33, 34):
                b.store("a.img", lost)
                done = f"{bad} table repaired from the {good}: {stages} blocks stored\n" if stage == stages else f"stopped after stage {stage} of {stages}, as asked: the reader still takes the {good} table\n"
                b.says(("repair", "a.img", "--stop-after", stage, "-b", size), done)
                came = b.bytes("a.img")
                changed = {i // size for i in range(len(came)) if came[i] != lost[i]}
                table = {head // size, *range(array // size, (array + 16384) // size)}
                b.true(f"repair --stop-after {stage}: {stage} blocks of the {bad} table change, and no other", changed <= table and len(changed) == min(stage, stages - 1), sorted(changed))
                shows(b, size, good if stage < stages else "front", OLD, "the check accepts the card" if stage == stages else like("the check refuses the card: {..} [4]"))
                b.equal("repair again: status", b.run("repair", "a.img", "-b", size).status, 0)
                b.true("repair again: the bytes", b.bytes("a.img") == whole)


def shown_cards(b):
    for size in (512, 4096):
        whole = gpt.card(128, size, OLD)
        b.store("a.img", whole)
        shows(b, size, "front", OLD, "the check accepts the card")
        for number in (4, 5, 6, 16):
            b.store("a.img", damaged(whole, size, True, number))
            shows(b, size, "back", OLD, like(f"the check refuses the card: {{..}}{WORDS[number]}{{..}} [{number}]"))
            b.store("a.img", damaged(whole, size, False, number))
            shows(b, size, "front", OLD, like(f"the check refuses the card: {{..}}{WORDS[number]}{{..}} [{number}]"))
            b.store("a.img", damaged(damaged(whole, size, True, number), size, False, 5))
            b.refuses(("show", "a.img", "-b", size), like(f"card: a.img: neither table can be read: {{..}}{WORDS[number]}. [27]\n"))
            b.refuses(("repair", "a.img", "-b", size), like("card: a.img{..} Nothing was changed. [27]\n"))
    front = gpt.with_slot(gpt.card(128, entries=OLD), 512, False, 1, NEW[1])
    b.store("a.img", front)
    shows(b, 512, "front", OLD, like("the check refuses the card: {..}the two tables differ, first in slot 1{..} [17]"))
    b.says(("repair", "a.img"), "back table repaired from the front: 34 blocks stored\n")
    b.true("repair of two good tables: the front stays", b.bytes("a.img") == gpt.card(128, entries=OLD))


def run(b):
    updates(b)


def run_repair(b):
    repairs(b)


def run_show(b):
    shown_cards(b)
