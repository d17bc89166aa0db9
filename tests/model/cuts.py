"""A second judge of updates and repairs that are cut: what document 02, 6/13 promises, worked out from the images' bytes alone and
without the model's own parts. It tells what each promise came to and what was due; `calls` is the model, the library or both compared.
"""

import struct
import zlib
from collections import namedtuple

ARRAY = 16384
ENTRY = 128
ROW = 136
GUID_PLACE = 56
FINISHED = 4

Update = namedtuple("Update", "b kind args cuts states plain first")
Repair = namedtuple("Repair", "b cuts states first")


def last_block(image, b):
    """The block of the back header."""
    return len(image) // b - 1


def copy_blocks(image, b, back):
    """The header's block and the array's first block of one copy."""
    last = last_block(image, b)
    return (last, last - ARRAY // b) if back else (1, 2)


def array_of(image, b, back=0):
    """The 16,384 bytes of one copy's array."""
    start = copy_blocks(image, b, back)[1] * b
    return image[start : start + ARRAY]


def header_of(image, b, back=0):
    """The block of one copy's header."""
    start = copy_blocks(image, b, back)[0] * b
    return image[start : start + b]


def guid_of(image, b, back=0):
    """The 16 bytes of one copy's disk GUID."""
    return header_of(image, b, back)[GUID_PLACE : GUID_PLACE + 16]


def laid_block(image, b, back, guid, parts):
    """The header block that lay's layout has for a copy, by UEFI's table, with the bytes of a disk GUID and an array's sum."""
    own, start = copy_blocks(image, b, back)
    other, last, blocks = copy_blocks(image, b, not back)[0], last_block(image, b), ARRAY // b
    usable = (2 + blocks, last - blocks - 1)

    def packed(own_sum):
        fields = (0x10000, 92, own_sum, 0, own, other, *usable, guid, start, 128, ENTRY, parts)
        return struct.pack("<8sIIIIQQQQ16sQIII", b"EFI PART", *fields)

    return packed(zlib.crc32(packed(0))) + bytes(b - 92)


def rows_of(array):
    """The rows of a listing: of each entry that is not all zeros the slot and the 128 bytes, cleared after the name's end."""
    rows = b""
    for slot in range(1, ARRAY // ENTRY + 1):
        raw = array[ENTRY * (slot - 1) : ENTRY * slot]
        if any(raw):
            name = raw[56:]
            end = next((place for place in range(0, 72, 2) if name[place : place + 2] == b"\0\0"), 72)
            rows += struct.pack("<Q", slot) + raw[:56] + name[:end] + bytes(72 - end)
    return rows


def changed_blocks(was, now, b):
    """The blocks in which two images differ, and the place -1 if their lengths do."""
    if len(was) != len(now):
        return {-1}
    return {place // b for place in range(0, len(was), b) if was[place : place + b] != now[place : place + b]}


def shown(calls, image, b):
    """What the reader shows: its number, whether it takes the back, and its rows."""
    number, (back,) = calls["card_reader_copy"](image, b)[:2]
    listed, (count,), (_, rows) = calls["card_reader_list"](image, b, b"\xee" * (128 * ROW))[:3]
    used = rows[: ROW * count]
    return (number, back, used) if listed == number and rows[len(used) :].strip(b"\xee") == b"" else ("listing", listed, rows)


def walked(calls, image, b):
    """What the reader shows by value: its count, and the rows from one used slot to the next."""
    rows, slot = b"", 0
    for _ in range(129):
        number, (slot,) = calls["card_reader_next"](image, b, slot)[:2]
        if number or not slot:
            break
        present, record = calls["card_reader_slot"](image, b, slot)[1]
        raw = calls["gpt_entry_to_bytes"](bytes(ENTRY), record)[2][0]
        rows += struct.pack("<Q", slot) + raw if present else b"not present"
    return calls["card_reader_count"](image, b)[:2], rows


def update(calls, image, b, kind, *args):
    """A put or a clear, plain and by stages: the image before and after each stage, and the state that each stage hands back. It
    stops at a stage that is refused."""
    plain = calls[f"card_{kind}"](image, b, *args)
    first = calls[f"card_start_{kind}"](image, b, *args)
    number, (_, state), (now,) = first[:3]
    cuts, states = [image], []
    while number == 0:
        cuts.append(now)
        states.append(state)
        if len(states) == FINISHED:
            break
        number, (_, state), (now,) = calls["card_next_stage"](now, b, len(states) + 1, state)[:3]
    return Update(b, kind, args, cuts, states, plain, first)


def update_blocks(image, b, slot):
    """The blocks of the four stages: the back array's changed one, the back header, the front array's changed one, the front header."""
    (back, back_array), (front, front_array) = (copy_blocks(image, b, side) for side in (1, 0))
    changed = ENTRY * (slot - 1) // b
    return back_array + changed, back, front_array + changed, front


def stage_promises(run):
    """Each stage changes its own block alone; what it hands back is the next stage and what was fixed at stage one."""
    image, now, slot = run.cuts[0], run.plain[2][0], run.args[0]
    old, new = array_of(image, run.b), array_of(now, run.b)
    raw = new[ENTRY * (slot - 1) : ENTRY * slot]
    fixed = (raw, guid_of(image, run.b), zlib.crc32(new))
    due = (slot, run.b, len(image), *fixed)
    yield "the new array", new, old[: ENTRY * (slot - 1)] + raw + old[ENTRY * slot :]
    yield "an empty slot", any(raw), run.kind == "put"
    for stage, (block, state) in enumerate(zip(update_blocks(image, run.b, slot), run.states), 1):
        was, is_now = run.cuts[stage - 1], run.cuts[stage]
        place = slice(block * run.b, (block + 1) * run.b)
        yield f"stage {stage}, other blocks", changed_blocks(was, is_now, run.b) - {block}, set()
        yield f"stage {stage}, its block", is_now[place], now[place]
        got = (state.slot, state.b, state.len, state.entry, struct.pack("<IHH8s", *state.guid), state.parts)
        yield f"stage {stage}, its state", (state.next, *got), (stage + 1, *due)
    for back, cut in ((1, run.cuts[2]), (0, run.cuts[4])):
        yield f"the header, back {back}", header_of(cut, run.b, back), laid_block(image, run.b, back, *fixed[1:])


def zeros(value):
    """Whether a value holds nothing but zeros."""
    return value == 0 if isinstance(value, int) else all(map(zeros, value))


def check_answers(old, new, slot):
    """What the plain check answers before and after each stage, and where (5/13): where the bytes do not change it accepts; a changed
    array is seen by its sum, back and then front, or by the other array at that slot, if the sums are equal or the header is new."""
    good, back, differs, front = (0, (0, 0)), (6, (2, 0)), (17, (4, slot)), (6, (1, 0))
    if old == new:
        return (good,) * 5
    equal = zlib.crc32(old) == zlib.crc32(new)
    return (good, differs, differs, good, good) if equal else (good, back, differs, front, good)


def update_promises(calls, run, walk=False):
    """Document 02, 6/13: stage one refuses as the plain call does. A cut leaves exactly the old table through the second stage and
    exactly the new one from the third on; after the fourth the image is the plain call's."""
    image, (number, values, (now,), where) = run.cuts[0], run.plain
    if number:
        got, (slot, state), (after,), place = run.first
        yield "the refusal of stage one", (got, (slot,), place), (number, values, where)
        yield "the state and the image beside a refusal", (zeros(state), after == image), (True, True)
        return
    yield "how many stages are accepted", len(run.states), FINISHED
    if len(run.states) < FINISHED:
        return
    yield from stage_promises(run)
    yield "the image after the fourth stage", run.cuts[4] == now, True
    old, new = array_of(image, run.b), array_of(now, run.b)
    tables = [rows_of(old)] * 3 + [rows_of(new)] * 2
    for after, (cut, table, due) in enumerate(zip(run.cuts, tables, check_answers(old, new, run.args[0]))):
        back = int(after == 3 and zlib.crc32(old) != zlib.crc32(new))
        yield f"the reader after {after}", shown(calls, cut, run.b), (0, back, table)
        checked = calls["card_check"](cut, run.b)
        yield f"the check after {after}", (checked[0], checked[3]), due
        if walk:
            yield f"the reader by value after {after}", walked(calls, cut, run.b), ((0, (len(table) // ROW,)), table)


def repair(calls, image, b):
    """A repair by its stages: the image before and after each stage, and the state that each one hands back. It stops at a stage that
    is refused, and after the last one."""
    first = calls["card_start_repair"](image, b)
    number, (_, state), (now,) = first[:3]
    cuts, states = [image], []
    while number == 0:
        cuts.append(now)
        states.append(state)
        if len(states) == 2 + ARRAY // b:
            break
        number, (_, state), (now,) = calls["card_next_repair"](now, b, len(states) + 1, state)[:3]
    return Repair(b, cuts, states, first)


def repair_blocks(image, b, back):
    """The block of each stage and what it then holds, if the back is the good copy or the front is."""
    header, start = copy_blocks(image, b, not back)
    array = array_of(image, b, back)
    yield header, bytes(b)
    for place in range(0, ARRAY, b):
        yield start + place // b, array[place : place + b]
    yield header, laid_block(image, b, not back, guid_of(image, b, back), zlib.crc32(array))


def repair_promises(calls, run, walk=False):
    """Document 02, 6/13: the other copy gets the disk GUID and the array of the one that the reader takes. A cut never changes what
    the reader shows, and after the last stage the plain check accepts and lists the same."""
    image, b = run.cuts[0], run.b
    number, back, table = shown(calls, image, b)
    yield "how many stages are accepted", len(run.states), 0 if number else 2 + ARRAY // b
    if number:
        got, (slot, state), (after,) = run.first[:3]
        yield "stage one is refused as the reader is", (got, slot, zeros(state), after == image), (number, 0, True, True)
    if len(run.states) != 2 + ARRAY // b:
        return
    fixed = (back, b, len(image), guid_of(image, b, back), zlib.crc32(array_of(image, b, back)))
    for stage, ((block, data), state) in enumerate(zip(repair_blocks(image, b, back), run.states), 1):
        was, now = run.cuts[stage - 1 : stage + 1]
        yield f"stage {stage}, other blocks", changed_blocks(was, now, b) - {block}, set()
        yield f"stage {stage}, its block", now[block * b : (block + 1) * b], data
        got = (state.back, state.b, state.len, struct.pack("<IHH8s", *state.guid), state.parts)
        yield f"stage {stage}, its state", (state.next, *got), (stage + 1, *fixed)
    for after, cut in enumerate(run.cuts):
        side = back if after < len(run.states) else 0
        yield f"the reader after {after}", shown(calls, cut, b), (0, side, table)
        if walk:
            yield f"the reader by value after {after}", walked(calls, cut, b), ((0, (len(table) // ROW,)), table)
    finished = run.cuts[-1]
    yield "the check at the end", calls["card_check"](finished, b)[0], 0
    listed = calls["card_list"](finished, b, bytes(len(table)))[:3]
    yield "the listing at the end", (listed[0], listed[1], listed[2][1]), (0, (len(table) // ROW,), table)
