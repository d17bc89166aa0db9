"""Card: a card in a file or a device of any size, by two windows of it, its head and its tail."""
from __future__ import annotations

import contextlib
import ctypes
import errno
import io
import itertools
import os
import struct
import uuid
from collections.abc import Iterable, Iterator

from . import _library as c
from ._buffers import NOTHING, Buffer, fits, lent, view_of
from ._records import Dated, Entry, Label, Record, Repair, SlotMap, Update
from ._records import dated_out, guid_in, label_in, label_out, map_out, number, present_out, record_in, repair_in, repair_out, rows_of, runs_of, size_in, slot_in, update_in, update_out
from ._refusals import BACK, FRONT, Refused, take
from ._stages import write_all

TYPE_CHECKING = False
if TYPE_CHECKING:
    from collections.abc import Callable
    from typing import Tuple, TypeVar

    from _typeshed import StrOrBytesPath
    from typing_extensions import Self

    from ._refusals import A, Answer

    Windows = Tuple[int, int, int, int, int, int]
    State = TypeVar("State", Update, Repair)


class Card:
    """A card in a file or a device of any size, which Card.open opens; with a `with` it is closed again.

    Two windows of it are in memory, some 33 KiB: the head, which is block 0 and the front table, and the tail, which is the back table. Every call answers as the function of its name
    does on an image of the whole card. Of the file nothing is read or written but blocks of these windows, each read once, and the payload's own bytes. lay, put and clear write the blocks that
    changed and no others, and then wait until the device has stored them; put_staged, clear_staged and repair_staged do so after each stage's one block. write_payload leaves that to sync.

    Refused is a verdict on the card, and then nothing was written. OSError is none: reading, writing or storing failed. If that was a block of a table, every call is OSError until
    reload has read the tables again; so it is if the file has become longer or shorter, which is looked at before each write. Nobody else may write the card meanwhile.

    block_size and blocks are the card's, writable is whether it can be written."""

    def __init__(self, file: int, block_size: int, writable: bool, path: StrOrBytesPath) -> None:
        self._file: int | None = file
        self._path, self.block_size, self.writable = path, block_size, writable
        self._length = self.blocks = 0
        self.reload()

    @classmethod
    def open(cls, path: str | bytes | os.PathLike[str] | os.PathLike[bytes], block_size: int | None = None, writable: bool = False) -> Self:
        """Opens a card's file or device to be read, or with writable=True to be written too. No check is made, since a card that was pulled is opened too, and one that is
        still to be laid; where the block size is None, it is the one by which the reader finds a table, and a file that has tables by both is a ValueError. 1, 8, 10; 27 where there is
        no block size to be found; and OSError."""
        file = os.open(path, (os.O_RDWR if writable else os.O_RDONLY) | os.O_CLOEXEC)
        try:
            return cls(file, size_in(block_size), writable, path) if block_size is not None else cls._found(file, writable, path)
        except BaseException:
            os.close(file)
            raise

    @classmethod
    def _found(cls, file: int, writable: bool, path: StrOrBytesPath) -> Self:
        """The card by the block size that fits."""
        found, refusals = [], []
        for block_size in (512, 4096):
            try:
                card = cls(file, block_size, writable, path)
                card.reader_copy()
                found.append(card)
            except Refused as refusal:
                refusals.append(refusal)
        if not found:
            raise refusals[0]
        if len(found) > 1:
            raise ValueError(f"{path!r} has tables by both block sizes: say which one is meant")
        return found[0]

    def __enter__(self) -> Self:
        self._opened()
        return self

    def __exit__(self, *_: object) -> None:
        self.close()

    def __iter__(self) -> Iterator[Entry]:
        """Goes through listing(), made at the beginning."""
        return iter(self.listing())

    def __repr__(self) -> str:
        how = "closed" if self.closed else f"{self.blocks} blocks of {self.block_size} bytes, " + ("writable" if self.writable else "read-only")
        return f"<card.Card {os.fspath(self._path)!r}: {how}>"

    @property
    def path(self) -> str | bytes | os.PathLike[str] | os.PathLike[bytes]:
        """The path that the card was opened by."""
        return self._path

    @property
    def closed(self) -> bool:
        """Whether the card was closed."""
        return self._file is None

    def close(self) -> None:
        """Closes the file. All that was written is in it."""
        file, self._file = self._file, None
        if file is not None:
            os.close(file)

    def reload(self) -> None:
        """Reads the file's length and both windows again. 1, 8, 10, and OSError; every other call is OSError then."""
        self._known = False
        length, b = os.lseek(self._opened(), 0, os.SEEK_END), self.block_size
        self._length, self.blocks = length, length // b if b else 0
        empty = NOTHING, 0
        told = c.card_window_check(*empty, *empty, self.blocks, b).number
        if told != 32:
            raise Refused(told)
        self._head, self._tail = self._read(0, 2 * b + 16384), self._read(self.blocks * b - b - 16384, b + 16384)
        self._known = True

    def lay(self, guid: uuid.UUID) -> None:
        """Lays an empty card for a disk GUID. If it is cut, the file may be no card."""
        self._change(lambda *windows: c.card_window_lay(*windows, guid_in(guid)))

    def check(self) -> None:
        """Raises Refused unless this is a whole card. 4, 5, 16, 6 of each table, front or back; 17, the disk GUID or a slot; 16 of the entries, front."""
        self._ask(c.card_window_check)

    def put(self, slot: int, record: Record) -> None:
        """Puts a record into a slot of both tables. The check's numbers, then 18, 19, 20, 21, 22, 25, 28."""
        arguments = slot_in(slot), record_in(record)
        self._change(lambda *windows: c.card_window_put(*windows, *arguments))

    def clear(self, slot: int) -> None:
        """Clears a slot in both tables; the partition's bytes stay. The check's numbers, then 18."""
        which = slot_in(slot)
        self._change(lambda *windows: c.card_window_clear(*windows, which))

    def get(self, slot: int) -> Record | None:
        """The record of a slot, or None where it is unused. The check's numbers, then 18."""
        return present_out(self._ask(c.card_window_read_slot, slot_in(slot)))

    def count(self) -> int:
        """How many slots are used. The check's numbers."""
        return self._ask(c.card_window_count_used).count

    def listing(self) -> list[Entry]:
        """The used slots, ascending, each with its record. The check's numbers."""
        return rows_of(lambda *out: self._ask(c.card_window_list, *out))

    def free_runs(self) -> list[range]:
        """The free ground, ascending, each run as a range of blocks. The check's numbers."""
        return runs_of(lambda *out: self._ask(c.card_window_free_runs, *out))

    def slot_map(self) -> SlotMap:
        """The slot map of the card, as it is now. The check's numbers."""
        return map_out(self._ask(c.card_window_map_make).map)

    def lowest_free(self) -> int:
        """The lowest free slot. The check's numbers, then 33."""
        return self.slot_map().lowest_free()

    def disk_guid(self) -> uuid.UUID:
        """The card's own GUID, which both tables have. The check's numbers."""
        self.check()
        return uuid.UUID(bytes_le=bytes(self._head[self.block_size + 56 : self.block_size + 72]))

    def reader_copy(self) -> int:
        """The table that the reader takes, FRONT or BACK. 27."""
        return BACK if self._ask(c.card_window_reader_copy).back else FRONT

    def reader_array(self) -> memoryview:
        """The 16,384 bytes of that table's array, as a view of the window that they stand in, to be read. 27."""
        window, place = (self._tail, 0) if self.reader_copy() == BACK else (self._head, 2 * self.block_size)
        return memoryview(window).toreadonly()[place : place + 16384]

    def reader_get(self, slot: int) -> Record | None:
        """The record of a slot of that table, or None where it is unused. 27, 18."""
        return present_out(self._ask(c.card_window_reader_slot, slot_in(slot)))

    def reader_listing(self) -> list[Entry]:
        """The used slots of that table, ascending, each with its record. 27."""
        return rows_of(lambda *out: self._ask(c.card_window_reader_list, *out))

    def put_staged(self, slot: int, record: Record, stop_after: int | None = None) -> None:
        """A put in four stages of one block each, the device having stored each before the next is made; with stop_after only so many of them, as if the card were pulled there. As put."""
        arguments = slot_in(slot), record_in(record)
        self._staged(stop_after, lambda *windows: update_out(c.card_window_start_put(*windows, *arguments)), self._next_stage)

    def clear_staged(self, slot: int, stop_after: int | None = None) -> None:
        """A clear, likewise. As clear."""
        which = slot_in(slot)
        self._staged(stop_after, lambda *windows: update_out(c.card_window_start_clear(*windows, which)), self._next_stage)

    def repair_staged(self, stop_after: int | None = None) -> None:
        """A repair, likewise: 34 stages with blocks of 512 bytes, 6 with 4,096. Repair only what check refuses. 27."""
        self._staged(stop_after, lambda *windows: repair_out(c.card_window_start_repair(*windows)), self._next_repair)

    def payload_place(self, slot: int, place: int, count: int) -> int:
        """Where so many bytes at a place of a slot's partition stand in the file. The check's numbers, then 18, 23, 24."""
        numbers = slot_in(slot), number(place, 64, "the place"), number(count, 64, "the count")
        return self._ask(c.card_window_payload_place, *numbers).at

    def write_payload(self, slot: int, place: int, data: Buffer) -> int:
        """Writes bytes, any buffer, at a place of a slot's partition, and says how many. The check's numbers, then 18, 23, 24."""
        file = self._to_write()
        with view_of(data, "the bytes to write") as view:
            fits(view, "the bytes to write", False)
            at = self.payload_place(slot, place, view.nbytes)
            self._same_length()
            write_all(file, view, at)
            return view.nbytes

    def read_payload(self, slot: int, place: int, count: int) -> bytes:
        """So many bytes from a place of a slot's partition on. The check's numbers, then 18, 23, 24."""
        return bytes(self._read(self.payload_place(slot, place, count), count))

    def read_label(self, slot: int) -> Label:
        """The label of a slot's map, of which 13 bytes are read. The check's numbers, then 18, 23, 34, 35, 36."""
        return self._labelled(slot, self.read_payload(slot, 0, 13))

    def write_label(self, slot: int, label: Label) -> None:
        """Writes a label at the start of a slot's partition, 13 bytes and no other. The check's numbers, then 18, 23, 36."""
        self._to_write()
        l = label_in(label)
        data = struct.pack("<3sHHBBHH", b"FBM", 1, l.year, l.month, l.day, l.style, l.sheet)
        # The library reads the bytes before the file has them: it refuses what it would refuse to write.
        self._labelled(slot, data)
        self.write_payload(slot, 0, data)

    def judge(self, slots: Iterable[int]) -> Dated:
        """The one date and style revision of the maps of a list of slots, of each of which 13 bytes are read before any is judged; the sheet is not compared, and a slot that is named twice is judged as one.
        38 where the list is empty, the check's numbers; then slot by slot 18, 23, 34, 35, 36, 37. Refused.slot is the first that fails or differs."""
        numbers = [number(slot, 32, "a slot") for slot in slots]
        # What a slot holds is read once, also where it is named twice. The judgement refuses an unreadable slot in its turn.
        found = {slot: self._first_bytes(slot) for slot in dict.fromkeys(numbers)}
        row = (ctypes.c_uint32 * (len(numbers) or 1))(*numbers)
        with lent(b"".join(found[slot] for slot in numbers)) as labels:
            return dated_out(self._ask(c.card_window_judge, ctypes.byref(row), len(numbers), *labels))

    def _first_bytes(self, slot: int) -> bytes:
        try:
            return self.read_payload(slot, 0, 13)
        except Refused:
            return bytes(13)

    def _labelled(self, slot: int, data: bytes) -> Label:
        with lent(data) as at:
            return label_out(self._ask(c.card_window_read_label, slot_in(slot), *at).label)

    def sync(self) -> None:
        """Waits until the device has stored all that was written."""
        os.fsync(self._opened())

    def _failed(self, what: str) -> OSError:
        return OSError(errno.EIO, what, self._path)

    def _opened(self) -> int:
        if self._file is None:
            raise ValueError("the card is closed")
        return self._file

    def _to_write(self) -> int:
        file = self._opened()
        if not self.writable:
            raise io.UnsupportedOperation("the card was opened to be read: writable=True opens it to be written too")
        return file

    @contextlib.contextmanager
    def _windows(self) -> Iterator[Windows]:
        """What a call on windows takes first."""
        self._opened()
        if not self._known:
            raise self._failed("since something failed the tables were not read again")
        with lent(self._head) as head, lent(self._tail) as tail:
            yield *head, *tail, self.blocks, self.block_size

    def _ask(self, call: Callable[..., A], *arguments: object) -> A:
        with self._windows() as windows:
            return take(call(*windows, *arguments))

    def _change(self, call: Callable[..., Answer]) -> None:
        """Makes a change in the windows, and stores the blocks that it changed: block 0, so that a card that can be read has its MBR, the back table, the front one; of each the array before its header."""
        self._to_write()
        before = bytes(self._head), bytes(self._tail)
        with self._windows() as windows:
            take(call(*windows))
        b, tail = self.block_size, self.blocks * self.block_size - len(self._tail)
        head = [place for place in range(0, len(self._head), b) if self._head[place : place + b] != before[0][place : place + b]]
        back = [tail + place for place in range(0, len(self._tail), b) if self._tail[place : place + b] != before[1][place : place + b]]
        self._store(*(place for place in head if place == 0), *back, *(place for place in reversed(head) if place != 0))

    def _staged(self, stop_after: int | None, start: Callable[..., State], go_on: Callable[[Windows, int, State], State]) -> None:
        self._to_write()
        state: State | None = None
        for stage in itertools.count(1):
            if state and stage > state.stages() or stop_after is not None and stage > stop_after:
                return
            with self._windows() as windows:
                state = go_on(windows, stage, state) if state else start(*windows)
            self._store(state.block(stage) * self.block_size)

    @staticmethod
    def _next_stage(windows: Windows, stage: int, state: Update) -> Update:
        return update_out(c.card_window_next_stage(*windows, stage, update_in(state)))

    @staticmethod
    def _next_repair(windows: Windows, stage: int, state: Repair) -> Repair:
        return repair_out(c.card_window_next_repair(*windows, stage, repair_in(state)))

    def _store(self, *places: int) -> None:
        """Writes the blocks at these places as the windows have them, and waits until the device has them. Before that has come to its end, the windows are not what the file has."""
        self._known, file = False, self._opened()
        self._same_length()
        tail = self.blocks * self.block_size - len(self._tail)
        for place in places:
            window, inside = (self._head, place) if place < tail else (self._tail, place - tail)
            write_all(file, window[inside : inside + self.block_size], place)
        os.fsync(file)
        self._known = True

    def _same_length(self) -> None:
        """The tail stands at the card's end only as long as the file's length is what it was."""
        length = os.lseek(self._opened(), 0, os.SEEK_END)
        if length != self._length:
            self._known = False
            raise self._failed(f"the file has {length} bytes, and had {self._length} when its tables were read")

    def _read(self, place: int, count: int) -> bytearray:
        """So many bytes of the file. A call that a signal interrupts goes on, and a file that ends too early is an error."""
        data = bytearray()
        while len(data) < count:
            piece = os.pread(self._opened(), count - len(data), place + len(data))
            if not piece:
                raise self._failed(f"the file ends before byte {place + count}: it was longer")
            data += piece
        return data
