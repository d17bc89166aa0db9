"""The card calls for Python, over libcard.so: lay, check, put, clear, write_payload, get, count, listing, disk_guid, free_runs; slot_map and what goes with it; read_label, write_label and
judge, of the labels of maps; start_put, start_clear, next_stage, start_repair and next_repair, which change one block each, the reader of a card that was pulled between them (reader_..),
and put_staged, clear_staged and repair_staged, which do all of it on a file; uefi_header and uefi_listing, which read the tables of other makers; payload_place and read_payload;
crc32_next, the check sum of bytes that come in pieces; and Card, all of this on a card in a file or a device of any size.

An image is any writable buffer of contiguous bytes, such as a bytearray or an mmap; the calls that only read take read-only ones too, such as bytes. No call
copies the image. A call that is refused raises Refused, with the number of the refusal (NUMBERS), and changes nothing.

The interpreter's lock is kept during a call, so that no other thread of Python writes the image meanwhile. Other processes must not do so either.

>>> import uuid
>>> image = bytearray(68 * 512)
>>> lay(image, 512, uuid.UUID("5a3f1c20-11e7-4b6d-9c04-0242ac110000"))
>>> record = Record(type=BASIC_DATA, guid=uuid.UUID(int=1), first=34, last=34, flags=Flags(required=True), name="map")
>>> put(image, 512, 1, record)
>>> for entry in listing(image, 512):
...     print(entry.slot, entry.record.first, entry.record.last, entry.record.name)
1 34 34 map
>>> listing(image, 512)[0].record.flags
Flags(required=True, no_block_io=False, legacy_bootable=False, reserved=0, owner=0)
>>> get(image, 512, 1) == record, get(image, 512, 2), count(image, 512), disk_guid(image, 512)
(True, None, 1, UUID('5a3f1c20-11e7-4b6d-9c04-0242ac110000'))
>>> write_payload(image, 512, 1, 0, b"north ridge")
11
>>> read_payload(image, 512, 1, 6, 5)
b'ridge'
>>> put(image, 512, 2, record)
Traceback (most recent call last):
  ...
card.Refused: refused 22, Overlap: a block that another slot has (slot 1)
>>> put(image, 512, 1, replace(record, flags=Flags.of_bits(8)))
Traceback (most recent call last):
  ...
card.Refused: refused 28, ReservedFlag: a flag that UEFI keeps reserved
>>> image[68 * 512 - 512] ^= 1
>>> check(image, 512)
Traceback (most recent call last):
  ...
card.Refused: refused 4, InvalidGptSignature: the back table's header does not begin with EFI PART
>>> image[68 * 512 - 512] ^= 1
>>> free_runs(image, 512)
[]
>>> clear(image, 512, 1)
>>> free_runs(image, 512)
[range(34, 35)]
>>> listing(image, 512), bytes(image[34 * 512:34 * 512 + 11])
([], b'north ridge')
>>> beside = slot_map(image, 512)
>>> slot, beside = put_lowest(image, 512, record, beside)
>>> slot, beside.used(), beside.lowest_free(), beside == slot_map(image, 512)
(1, 1, 2, True)
>>> hex(crc32_next(crc32_next(FRESH, b"1234"), b"56789"))
'0xcbf43926'

Each map's partition begins with a label, and a set of maps on one screen has one date and one style revision.

>>> write_label(image, 512, 1, Label(2026, 7, 14, style=3, sheet=9))
>>> read_label(image, 512, 1)
Label(year=2026, month=7, day=14, style=3, sheet=9)
>>> judge(image, 512, [1, 1])
Dated(year=2026, month=7, day=14, style=3)
>>> judge(image, 512, [1, 2])
Traceback (most recent call last):
  ...
card.Refused: refused 23, EmptySlot: the slot is not used (slot 2)

People pull cards in the middle of an update. Stage by stage a put or a clear changes one block at a time, and wherever it is cut the reader shows exactly the old table or
exactly the new one: the old one up to stage two, the new one from stage three on.

>>> state = start_clear(image, 512, 1)
>>> for stage in (2, 3, 4):
...     print(state.next, [entry.slot for entry in reader_listing(image, 512)])
...     state = next_stage(image, 512, stage, state)
2 [1]
3 [1]
4 []
>>> listing(image, 512)
[]
>>> next_stage(image, 512, 4, state)
Traceback (most recent call last):
  ...
card.Refused: refused 26, WrongStage: the state does not lead to this stage on an image of this length and block size
>>> image[512:1024] = bytes(512)
>>> reader_copy(image, 512) == BACK, reader_get(image, 512, 1)
(True, None)
>>> state = start_repair(image, 512)
>>> while state.next <= state.stages():
...     state = next_repair(image, 512, state.next, state)
>>> check(image, 512)

Cards from other makers, with longer headers or other entries, are read by UEFI, each table for itself.

>>> uefi_header(image, 512).size, [entry.slot for entry in uefi_listing(image, 512, BACK)]
(92, [])

A card in a file need not fit into memory. Card.open reads its two tables, and each call reads and writes nothing else but the payload's own bytes.

>>> import tempfile
>>> with tempfile.NamedTemporaryFile() as file:
...     _ = file.truncate(64 << 30)
...     with Card.open(file.name, 512, writable=True) as large:
...         large.lay(uuid.UUID("5a3f1c20-11e7-4b6d-9c04-0242ac110000"))
...         large.put_staged(large.lowest_free(), replace(record, first=2048, last=67108863))
...         large.write_payload(1, 20 << 30, b"north ridge")
...     with Card.open(file.name) as large:
...         large.block_size, large.read_payload(1, 20 << 30, 11), large.free_runs()
...         [(entry.slot, entry.record.name) for entry in large], large.get(2), large.disk_guid()
...         print(repr(large).replace(file.name, "field.img"))
11
(512, b'north ridge', [range(34, 2048), range(67108864, 134217695)])
([(1, 'map')], None, UUID('5a3f1c20-11e7-4b6d-9c04-0242ac110000'))
<card.Card 'field.img': 134217728 blocks of 512 bytes, read-only>
>>> large.closed, large.path == file.name
(True, True)

On a file, put_staged(path, 512, 2, record) has the device store each block before it makes the next stage. Two premises hold these promises up: a block is stored wholly or not at
all, and nothing else writes the card between the stages. Repair only what check refuses: a repair of a whole card first destroys its back header. Hand a card to a
tablet only after stage four or a finished repair.

The library is the file that CARD_LIBRARY names. Where that is not set, libcard.so.0 or libcard.so is looked for beside this file, as the wheel has it, in the repository's target/lib and
where the system's loader looks. python3 -m card runs these examples. The package has types, for Python 3.8 or later: Buffer is what a call reads, WritableBuffer what it writes.
"""
from dataclasses import replace

from ._buffers import Buffer, WritableBuffer
from ._files import Card
from ._image import (FRESH, check, clear, clear_mapped, count, crc32_next, disk_guid, free_runs, get, judge, lay, library_version, listing, payload_place, put, put_lowest, put_mapped, read_label,
                     read_payload, slot_map, uefi_header, uefi_listing, write_label, write_payload)
from ._records import BASIC_DATA, RUNS, Dated, Entry, Flags, Header, Label, Record, Repair, SlotMap, Update
from ._refusals import BACK, DISK_GUID, FRONT, NOWHERE, NUMBERS, SLOT, Refused
from ._stages import clear_staged, next_repair, next_stage, put_staged, reader_copy, reader_get, reader_listing, repair_staged, start_clear, start_put, start_repair

__version__ = "0.1.0"
__all__ = [
    "BACK", "BASIC_DATA", "Buffer", "Card", "DISK_GUID", "Dated", "Entry", "FRESH", "FRONT", "Flags", "Header", "Label", "NOWHERE", "NUMBERS", "RUNS", "Record", "Refused", "Repair", "SLOT",
    "SlotMap", "Update", "WritableBuffer", "check", "clear", "clear_mapped", "clear_staged", "count", "crc32_next", "disk_guid", "free_runs", "get", "judge", "lay", "library_version", "listing", "next_repair",
    "next_stage", "payload_place", "put", "put_lowest", "put_mapped", "put_staged", "read_label", "read_payload", "reader_copy", "reader_get", "reader_listing", "repair_staged", "replace",
    "slot_map", "start_clear", "start_put", "start_repair", "uefi_header", "uefi_listing", "write_label", "write_payload",
]

# Each is called by the name that it is imported by, in a traceback and in a pickle too.
for _name in __all__:
    if getattr(globals()[_name], "__module__", "").startswith("card._"):
        globals()[_name].__module__ = "card"
