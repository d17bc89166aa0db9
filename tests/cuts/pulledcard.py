"""A card in a file, and beside it what its history says: the bytes that the file is due to have, the table that the reader is due to show,
and the check's answer."""

import os
import zlib

from table import ARRAY, BACK, FRONT, Table, array_of, changed_to, header_block, rows_of, stored, with_table

GOOD = (0, 0, 0)
PLACES = {FRONT: 1, BACK: 2}
UPDATE_STAGES = 4
UNTOUCHED = b"\xee"


class Wrong(Exception):
    """The file or an answer is not as the history says."""


def hold(what, got, due):
    """Ends the cut if something is not as due."""
    if got != due:
        raise Wrong(f"{what}: {got!r:.200}, and {due!r:.200} is due")


class PulledCard:
    """A card that is written block by block. A stage reads the file, works on the bytes in memory, and stores the one block that it has
    changed; nothing but the file goes from one stage to the next, and the state."""

    def __init__(self, calls, path, shape, image, table, back=FRONT, checked=GOOD):
        self.calls, self.path, self.shape = calls, path, shape
        self.due, self.table, self.back, self.checked = image, table, back, checked
        with open(path, "wb") as file:
            file.write(image)

    def read(self):
        """The file's bytes, by a reader that knows nothing of what was before."""
        with open(self.path, "rb") as file:
            return bytearray(file.read())

    def store(self, was, now):
        """Stores the blocks in which two images differ, and gives their numbers."""
        b = self.shape.b
        places = [place for place in range(0, len(was), b) if was[place : place + b] != now[place : place + b]]
        device = os.open(self.path, os.O_WRONLY)
        try:
            for place in places:
                os.pwrite(device, now[place : place + b], place)
                os.fsync(device)
        finally:
            os.close(device)
        return {place // b for place in places}

    def stage(self, number, block, data, call, *args):
        """One stage: it is accepted, and it changes its own block alone, to these bytes. Gives the state."""
        image = self.read()
        was = bytes(image)
        answer, state = call(image, self.shape.b, *args)
        hold(f"stage {number}", answer, 0)
        hold(f"stage {number}: other blocks than {block}", self.store(was, image) - {block}, set())
        self.due = stored(self.due, self.shape, block, data)
        hold(f"stage {number}: the file", self.read() == self.due, True)
        return state

    def block(self, image, block):
        """One block of an image."""
        return image[block * self.shape.b : (block + 1) * self.shape.b]

    def update(self, slot, raw, cut):
        """A put or a clear of a good card, cut after so many of its four stages."""
        new = Table(self.table.guid, changed_to(self.table.slots, slot, raw))
        plain, finished, state = bytearray(self.due), with_table(self.due, self.shape, new), None
        for stage, block in enumerate(self.shape.update_blocks(slot)[:cut], 1):
            call = (self.calls.next_stage, stage, state) if stage > 1 else (self.calls.start, slot, raw)
            state = self.stage(stage, block, self.block(finished, block), *call)
        if cut == UPDATE_STAGES:
            hold("a fifth stage", self.calls.next_stage(self.read(), self.shape.b, 5, state)[0], 26)
            hold("the plain call", (self.calls.plain(plain, self.shape.b, slot, raw), plain == self.due), (0, True))
        self.checked, self.back = self.answers(slot, new)[cut]
        self.table = new if cut > 2 else self.table

    def answers(self, slot, new):
        """The check's answer and the reader's copy before an update and after each of its stages. Where the bytes do not change, nothing
        is seen; a changed array is seen by its sum, or, if the sums are equal or the header is new, by the other array."""
        old, now = array_of(self.table.slots), array_of(new.slots)
        good, differs = (GOOD, FRONT), ((17, 4, slot), FRONT)
        if old == now:
            return (good,) * 5
        if zlib.crc32(old) == zlib.crc32(now):
            return good, differs, differs, good, good
        return good, ((6, PLACES[BACK], 0), FRONT), differs, ((6, PLACES[FRONT], 0), BACK), good

    def plain(self, slot, raw):
        """A plain put or clear of a good card, stored in the file by all the blocks that it changes."""
        image = self.read()
        hold("a plain call", self.calls.plain(image, self.shape.b, slot, raw), 0)
        self.store(self.due, image)
        self.table = Table(self.table.guid, changed_to(self.table.slots, slot, raw))
        self.due = with_table(self.due, self.shape, self.table)

    def repair_stages(self):
        """How many stages a repair has."""
        return 2 + ARRAY // self.shape.b

    def repair_data(self):
        """The bytes of each stage of a repair: zeros, the array's blocks, the header."""
        array, other = array_of(self.table.slots), BACK - self.back
        blocks = [array[place : place + self.shape.b] for place in range(0, ARRAY, self.shape.b)]
        return bytes(self.shape.b), *blocks, header_block(self.shape, other, self.table.guid, zlib.crc32(array))

    def repair(self, cut, each=None):
        """A repair, cut after so many of its stages; after each of them something may be asked."""
        other, state = BACK - self.back, None
        blocks = self.shape.repair_blocks(self.back)
        for stage, (block, data) in enumerate(zip(blocks[:cut], self.repair_data()), 1):
            call = (self.calls.next_repair, stage, state) if stage > 1 else (self.calls.start_repair,)
            state = self.stage(stage, block, data, *call)
            self.checked = (4, PLACES[other], 0)
            if stage == len(blocks):
                self.checked, self.back = GOOD, FRONT
                hold("one stage more", self.calls.next_repair(self.read(), self.shape.b, stage + 1, state)[0], 26)
            if each:
                each()

    def judge(self):
        """What a new reader makes of the file, and what the check does."""
        image, b, slots = self.read(), self.shape.b, self.table.slots
        rows = rows_of(slots)
        hold("the file", image == self.due, True)
        hold("the reader's copy", self.calls.copy(image, b), (0, self.back))
        hold("the reader's count", self.calls.count(image, b), (0, len(slots)))
        number, count, out = self.calls.listed(image, b)
        hold("the reader's list", (number, count), (0, len(slots)))
        hold("the reader's rows", (out[: len(rows)] == rows, out[len(rows) :].strip(UNTOUCHED)), (True, b""))
        hold("the check", self.calls.check(image, b), self.checked)
        hold("the bytes after reading", image == self.due, True)
        hold("stage one by the check", self.calls.start(image, b, 1, bytes(128))[0], self.checked[0])
