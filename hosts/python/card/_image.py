"""The calls on an image of a whole card, any buffer in memory: laid, checked, its slots put, cleared and listed, payload, free ground, slot maps, labels, and the tables of other makers."""
from __future__ import annotations

import ctypes
import uuid
from collections.abc import Iterable, Mapping

from . import _library as c, _structs as structs
from ._buffers import Buffer, WritableBuffer, apart, lent
from ._records import Dated, Entry, Header, Label, Record, SlotMap
from ._records import dated_out, entries_out, guid_in, header_out, label_in, label_out, map_in, map_out, number, present_out, record_in, rows_of, runs_of, size_in, slot_in
from ._refusals import FRONT, take

TYPE_CHECKING = False
if TYPE_CHECKING:
    from typing import TypeVar

    T = TypeVar("T")

FRESH = 0  # the sum of nothing, from which crc32_next starts a new sum


def lay(image: WritableBuffer, block_size: int, guid: uuid.UUID) -> None:
    """Lays an empty card for a disk GUID. 1, 8, 10."""
    with lent(image, written=True) as at:
        take(c.card_lay(*at, size_in(block_size), guid_in(guid)))


def check(image: Buffer, block_size: int) -> None:
    """Raises Refused unless the image is a whole card. 1, 8, 10; 4, 5, 16, 6 of each table, front or back; 17, the disk GUID or a slot; 16 of the entries, front."""
    with lent(image) as at:
        take(c.card_check(*at, size_in(block_size)))


def put(image: WritableBuffer, block_size: int, slot: int, record: Record) -> None:
    """Puts a record into a slot of both tables. The check's numbers, then 18, 19, 20, 21, 22, 25, and 28 if it has a reserved flag."""
    with lent(image, written=True) as at:
        take(c.card_put(*at, size_in(block_size), slot_in(slot), record_in(record)))


def clear(image: WritableBuffer, block_size: int, slot: int) -> None:
    """Clears a slot in both tables; the partition's bytes stay. The check's numbers, then 18."""
    with lent(image, written=True) as at:
        take(c.card_clear(*at, size_in(block_size), slot_in(slot)))


def write_payload(image: WritableBuffer, block_size: int, slot: int, place: int, data: Buffer) -> int:
    """Writes bytes at a place of a slot's partition, and says how many. The bytes are any buffer outside the image. The check's numbers, then 18, 23, 24."""
    with lent(image, written=True) as at, lent(data, "the bytes to write") as source:
        apart(at, source)
        return take(c.card_write_payload(*at, size_in(block_size), slot_in(slot), number(place, 64, "the place"), *source)).bytes


def payload_place(image: Buffer, block_size: int, slot: int, place: int, count: int) -> int:
    """Where so many bytes at a place of a slot's partition stand in the card, counted from its first byte. The check's numbers, then 18, 23, 24."""
    with lent(image) as at:
        return take(c.card_payload_place(*at, size_in(block_size), slot_in(slot), number(place, 64, "the place"), number(count, 64, "the count"))).at


def read_payload(image: Buffer, block_size: int, slot: int, place: int, count: int) -> bytes:
    """So many bytes from a place of a slot's partition on. The check's numbers, then 18, 23, 24."""
    payload_place(image, block_size, slot, place, count)
    out = bytearray(count)
    with lent(image) as at, lent(out, written=True) as room:
        take(c.card_read_payload(*at, size_in(block_size), slot, place, *room))
    return bytes(out)


def get(image: Buffer, block_size: int, slot: int) -> Record | None:
    """The record of a slot, or None where it is unused. The check's numbers, then 18."""
    with lent(image) as at:
        return present_out(c.card_read_slot(*at, size_in(block_size), slot_in(slot)))


def count(image: Buffer, block_size: int) -> int:
    """How many slots are used. The check's numbers."""
    with lent(image) as at:
        return take(c.card_count_used(*at, size_in(block_size))).count


def listing(image: Buffer, block_size: int) -> list[Entry]:
    """The used slots, ascending, each with its record. The check's numbers."""
    with lent(image) as at:
        return rows_of(lambda *out: c.card_list(*at, size_in(block_size), *out))


def disk_guid(image: Buffer, block_size: int) -> uuid.UUID:
    """The card's own GUID, which both tables have. The check's numbers."""
    check(image, block_size)
    return uefi_header(image, block_size).guid


def free_runs(image: Buffer, block_size: int) -> list[range]:
    """The free ground: the maximal runs of usable blocks that no used slot has, ascending, each as a range of blocks. The check's numbers."""
    with lent(image) as at:
        return runs_of(lambda *out: c.card_free_runs(*at, size_in(block_size), *out))


def slot_map(image: Buffer, block_size: int) -> SlotMap:
    """The slot map of a card. The check's numbers."""
    with lent(image) as at:
        return map_out(take(c.card_map_make(*at, size_in(block_size))).map)


def _carried(answer: structs.Carried) -> SlotMap:
    """The map after an accepted call; after a refused one the caller still has the one that it handed in."""
    take(answer.answer)
    return map_out(answer.map)


def put_mapped(image: WritableBuffer, block_size: int, slot: int, record: Record, beside: SlotMap) -> SlotMap:
    """As put, and gives the slot map `beside` with the slot's bit set."""
    with lent(image, written=True) as at:
        return _carried(c.card_map_put(*at, size_in(block_size), slot_in(slot), record_in(record), map_in(beside)))


def clear_mapped(image: WritableBuffer, block_size: int, slot: int, beside: SlotMap) -> SlotMap:
    """As clear, and gives the slot map `beside` with the slot's bit cleared."""
    with lent(image, written=True) as at:
        return _carried(c.card_map_clear(*at, size_in(block_size), slot_in(slot), map_in(beside)))


def put_lowest(image: WritableBuffer, block_size: int, record: Record, beside: SlotMap) -> tuple[int, SlotMap]:
    """Puts a record into the lowest slot that is free in the slot map `beside`; gives the slot and the map after it. 33, then as put."""
    slot = beside.lowest_free()
    return slot, put_mapped(image, block_size, slot, record, beside)


def read_label(image: Buffer, block_size: int, slot: int) -> Label:
    """The label of a slot's map. The check's numbers, then 18, 23, 34, 35, 36."""
    with lent(image) as at:
        return label_out(take(c.card_read_label(*at, size_in(block_size), slot_in(slot))).label)


def write_label(image: WritableBuffer, block_size: int, slot: int, label: Label) -> None:
    """Writes a label at the start of a slot's partition, 13 bytes and no other. The check's numbers, then 18, 23, 36."""
    with lent(image, written=True) as at:
        take(c.card_write_label(*at, size_in(block_size), slot_in(slot), label_in(label)))


def judge(image: Buffer, block_size: int, slots: Iterable[int]) -> Dated:
    """The one date and style revision of the maps of a list of slots; the sheet is not compared, and a slot that is named twice is judged as one. 1, 38 where the list is empty,
    the check's numbers; then slot by slot 18, 23, 34, 35, 36, and 37 for another date or another style revision than the first slot's. Refused.slot is the first that fails or differs."""
    numbers = [number(slot, 32, "a slot") for slot in slots]
    row = (ctypes.c_uint32 * (len(numbers) or 1))(*numbers)
    with lent(image) as at:
        return dated_out(take(c.card_judge(*at, size_in(block_size), ctypes.byref(row), len(numbers))))


def _of_table(calls: Mapping[int, T], table: int) -> T:
    """The call of these that is the table's own."""
    if table not in calls:
        raise ValueError(f"the table is FRONT or BACK, and not {table!r}")
    return calls[table]


def uefi_header(image: Buffer, block_size: int, table: int = FRONT) -> Header:
    """The header of one table, FRONT or BACK, by UEFI: it may state any size from 92 bytes to the block size. 1, 2 of the front or 8 of the back, 4, 29, 5, 30, 31."""
    call = _of_table(c.uefi_headers, table)
    with lent(image) as at:
        return header_out(take(call(*at, size_in(block_size))).header)


def uefi_listing(image: Buffer, block_size: int, table: int = FRONT) -> list[Entry]:
    """The slots of one table, FRONT or BACK, whose type is not nil, ascending, each with its record, by UEFI. As uefi_header, then 7, 3, 2, 6."""
    how_many, fill = _of_table(c.uefi_counts, table), _of_table(c.uefi_lists, table)
    with lent(image) as at:
        rows = (structs.Row * take(how_many(*at, size_in(block_size))).count)()
        n = take(fill(*at, size_in(block_size), ctypes.byref(rows), ctypes.sizeof(rows))).count
    return entries_out(rows[:n])


def crc32_next(running: int, data: Buffer) -> int:
    """The check sum CRC-32/ISO-HDLC that goes on over bytes, any buffer: `running` is the sum of the bytes before them, FRESH where there are none."""
    running = number(running, 32, "the running sum")
    with lent(data, "the bytes to sum") as at:
        return c.gpt_crc32_next(running, *at)


def library_version() -> tuple[int, int, int]:
    """The version of the library that was loaded: major, minor and patch. The package's own is __version__.

    >>> ".".join(map(str, library_version())) == __version__
    True
    """
    version = c.card_version()
    return version.major, version.minor, version.patch
