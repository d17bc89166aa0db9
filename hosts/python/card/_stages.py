"""A card that may be pulled: put, clear and repair in stages that change one block each, the reader of what a cut between them leaves, and all stages in a row on a card's file."""
from __future__ import annotations

import contextlib
import os

from . import _library as c
from ._buffers import Buffer, WritableBuffer, lent
from ._records import Entry, Record, Repair, Update
from ._records import number, present_out, record_in, repair_in, repair_out, rows_of, size_in, slot_in, update_in, update_out
from ._refusals import BACK, FRONT, take

TYPE_CHECKING = False
if TYPE_CHECKING:
    import mmap
    from collections.abc import Callable, Iterator
    from typing import TypeVar

    from _typeshed import StrOrBytesPath

    State = TypeVar("State", Update, Repair)


def reader_copy(image: Buffer, block_size: int) -> int:
    """The table that the reader takes, FRONT or BACK: the front one if its header, layout, array and entries pass, else the back one by the same tests. 1, 8, 10, 27."""
    with lent(image) as at:
        return BACK if take(c.card_reader_copy(*at, size_in(block_size))).back else FRONT


def reader_get(image: Buffer, block_size: int, slot: int) -> Record | None:
    """The record of a slot of that table, or None where it is unused. 1, 8, 10, 27, 18."""
    with lent(image) as at:
        return present_out(c.card_reader_slot(*at, size_in(block_size), slot_in(slot)))


def reader_listing(image: Buffer, block_size: int) -> list[Entry]:
    """The used slots of that table, ascending, each with its record. 1, 8, 10, 27."""
    with lent(image) as at:
        return rows_of(lambda *out: c.card_reader_list(*at, size_in(block_size), *out))


def start_put(image: WritableBuffer, block_size: int, slot: int, record: Record) -> Update:
    """Stage one of a put, which changes one block: gives the Update for stage two. As put."""
    with lent(image, written=True) as at:
        return update_out(c.card_start_put(*at, size_in(block_size), slot_in(slot), record_in(record)))


def start_clear(image: WritableBuffer, block_size: int, slot: int) -> Update:
    """Stage one of a clear, which changes one block: gives the Update for stage two. As clear."""
    with lent(image, written=True) as at:
        return update_out(c.card_start_clear(*at, size_in(block_size), slot_in(slot)))


def next_stage(image: WritableBuffer, block_size: int, stage: int, state: Update) -> Update:
    """Stage two, three or four of a put or a clear, which changes one block: gives the Update for the next one. 1, then 26 unless the state leads to this stage of an
    image of this length and block size."""
    with lent(image, written=True) as at:
        return update_out(c.card_next_stage(*at, size_in(block_size), number(stage, 32, "the stage"), update_in(state)))


def start_repair(image: WritableBuffer, block_size: int) -> Repair:
    """Stage one of a repair, which gives the table that the reader does not take the disk GUID and the array of the other: zeros in its header. Repair only what check
    refuses. 1, 8, 10, 27."""
    with lent(image, written=True) as at:
        return repair_out(c.card_start_repair(*at, size_in(block_size)))


def next_repair(image: WritableBuffer, block_size: int, stage: int, state: Repair) -> Repair:
    """A later stage of a repair, which changes one block: a block of the array, or at the last stage the header. 1, then 26 as next_stage."""
    with lent(image, written=True) as at:
        return repair_out(c.card_next_repair(*at, size_in(block_size), number(stage, 32, "the stage"), repair_in(state)))


@contextlib.contextmanager
def _opened(path: StrOrBytesPath) -> Iterator[tuple[int, mmap.mmap | bytearray]]:
    """A card's file or device, and its bytes in memory that is ours alone: of what a stage changes there, nothing is in the file before _store. No byte is read before it is
    looked at."""
    import mmap  # nothing else needs it, and most programs do not come here

    file = os.open(path, os.O_RDWR | os.O_CLOEXEC)
    try:
        length = os.lseek(file, 0, os.SEEK_END)
        if length:
            with mmap.mmap(file, length, access=mmap.ACCESS_COPY) as image:
                yield file, image
        else:
            yield file, bytearray()
    finally:
        os.close(file)


def write_all(file: int, data: Buffer, place: int) -> None:
    """Writes all bytes of a buffer from a place on. A call that a signal interrupts goes on."""
    view = memoryview(data)
    view, done = view.cast("B") if view.nbytes else view, 0
    while done < view.nbytes:
        done += os.pwrite(file, view[done:], place + done)


def _store(file: int, image: mmap.mmap | bytearray, place: int, length: int) -> None:
    """Has the device store one block, and waits until it has."""
    write_all(file, bytes(image[place:place + length]), place)
    os.fsync(file)


def _staged(path: StrOrBytesPath, block_size: int, stop_after: int | None, start: Callable[[WritableBuffer], State], go_on: Callable[[WritableBuffer, int, int, State], State]) -> None:
    """Makes the stages on a file, each stored before the next is made; with stop_after only so many of them, as if the card were pulled there."""
    with _opened(path) as (file, image):
        state = start(image)
        for stage in range(1, state.stages() + 1):
            if stop_after is not None and stage > stop_after:
                return
            if stage > 1:
                state = go_on(image, block_size, stage, state)
            _store(file, image, state.block(stage) * block_size, block_size)


def put_staged(path: str | bytes | os.PathLike[str] | os.PathLike[bytes], block_size: int, slot: int, record: Record, stop_after: int | None = None) -> None:
    """A put on a card's file or device, in four stages of one block each: the device has stored each before the next is made. Wherever it is cut, the reader shows the old
    table or the new one, if a block is stored wholly or not at all and nothing else writes the card meanwhile. As put, and OSError where the device fails."""
    _staged(path, block_size, stop_after, lambda image: start_put(image, block_size, slot, record), next_stage)


def clear_staged(path: str | bytes | os.PathLike[str] | os.PathLike[bytes], block_size: int, slot: int, stop_after: int | None = None) -> None:
    """A clear, likewise. As clear."""
    _staged(path, block_size, stop_after, lambda image: start_clear(image, block_size, slot), next_stage)


def repair_staged(path: str | bytes | os.PathLike[str] | os.PathLike[bytes], block_size: int, stop_after: int | None = None) -> None:
    """A repair, likewise: 34 stages with blocks of 512 bytes, 6 with 4,096. Wherever it is cut, the reader shows what it showed. Repair only what check refuses: of a whole card a
    repair first destroys the back header. 1, 8, 10, 27."""
    _staged(path, block_size, stop_after, lambda image: start_repair(image, block_size), next_repair)
