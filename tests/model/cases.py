"""Arguments for each call. ON_IMAGE gives what follows the image; LOOSE gives all arguments of the calls that take no image."""

import struct

import foreign
import headers
import images
import maps
import model
import screens
import states
import text_draws
from draws import BAD_BLOCK_SIZES, ENTRY_SIZES, SLOTS
from entries import Flags, record_from
from sums import FRESH, crc32
from units import ALL_64, NIL


def slot(draw, image, b):
    """A slot: an edge, a used one or any."""
    used = list(images.used_blocks(image, b))
    return draw.pick(draw.pick((SLOTS, used or SLOTS, range(1, 129), range(1, 129))))


def put_record(draw, image, b):
    """A record for put: on free ground, near the edges of the usable blocks, over a used slot, or any."""
    card = images.places(len(image), b)
    record = draw.record()
    if card is None:
        return record
    free = images.free_blocks(image, b)
    used = list(images.used_blocks(image, b).values())
    kind = draw.below(12)
    if kind < 6 and free:
        first = draw.pick(free)
        last = first
        while last + 1 in free and draw.chance(40):
            last += 1
        return record._replace(first_lba=first, last_lba=last)
    if kind < 8 and used:
        first, last = draw.pick(used)
        return record._replace(first_lba=first - draw.below(3), last_lba=last + draw.below(3))
    if kind < 9 and used:
        return record._replace(first_lba=min(draw.pick(used)), last_lba=max(draw.pick(used)))
    if kind < 11:
        return draw.record([card.first_usable, card.last_usable])
    return record


def put_guid(draw, image, b, at, record):
    """A record for put with a GUID of the card: the slot's own, another's, nil, or one bit beside such a one; at times
    with the blocks of one used slot and the GUID of a lower one, else mostly on free ground."""
    held = images.used_guids(image, b)
    kind = draw.below(7)
    if kind in (0, 4) and len(held) > 1:
        low, high = sorted(draw.random.sample(sorted(held), 2))
        first, last = images.used_blocks(image, b)[high]
        return record._replace(part_guid=held[low], first_lba=first, last_lba=last)
    free = images.free_blocks(image, b)
    if free and draw.chance(75):
        first = draw.pick(free)
        record = record._replace(first_lba=first, last_lba=first)
    guid = NIL if kind == 1 else held[draw.pick([at] if kind == 2 and at in held else sorted(held))]
    return record._replace(part_guid=draw.near_guid(guid) if kind == 3 else guid)


def put_call(draw, image, b):
    """The arguments of put; at times with a GUID of the card, or with a used slot's own GUID and its blocks or others."""
    size, at = size_and_slot(draw, image, b)
    record = put_record(draw, image, b)
    record = record._replace(reserved=0) if draw.chance(75) else record
    held = images.used_entries(image, b)
    kind = draw.below(10)
    if not held or kind < 5:
        return size, at, record
    if kind < 9:
        return size, at, put_guid(draw, image, b, at, record)
    at = draw.pick(sorted(held))
    own = record_from(held[at])
    return size, at, draw.pick((own._replace(name=record.name), record._replace(part_guid=own.part_guid)))


def payload(draw, image, b):
    """A slot, a place and bytes: near the partition's end, at 0, or where their sum passes 64 bits."""
    used = images.used_blocks(image, b)
    at = slot(draw, image, b) if draw.chance(25) or not used else draw.pick(list(used))
    first, last = used.get(at, (0, 0))
    size = min(max(last - first + 1, 0) * b, 1 << 20)
    place = draw.number(64, [0, size, size, max(size - 7, 0), size // 2])
    left = max(size - place, 0)
    length = draw.pick((0, 1, left - 1, left, left, left + 1, draw.below(600)))
    if draw.chance(8):
        length = 1 + draw.below(600)
        place = 2**64 - 1 - draw.below(length)
    return draw.block_size(b), at, place, draw.data(max(length, 0))


def payload_place(draw, image, b):
    """A slot, a place and a number of bytes: those of a payload write, or a number near 64 bits."""
    size, at, place, data = payload(draw, image, b)
    return size, at, place, len(data) if draw.chance(85) else draw.number(64, [2**64 - place])


def lent_header(draw, image, b):
    """A header for the array calls: the image's own, one with a small array, or any; its array sum is right most times."""
    card = images.places(len(image), b)
    blocks = len(image) // b
    kind = draw.below(10)
    header = draw.header([1, 2, blocks - 1, blocks, 2**64 // b])
    if kind < 5 and card:
        place = draw.pick((card.front, card.back))
        header = headers.header_from(image[place : place + 92])
        header = header._replace(crc32_parts=crc32(image[header.part_start * b :][: 128 * header.num_parts])) if draw.chance(60) else header
    elif kind < 8:
        start = draw.below(blocks + 2) if draw.chance(80) else draw.number(64, [blocks, 2**64 // b])
        fit = max((len(image) - start * b) // 128, 0)
        count = draw.pick((0, 1, 4, fit, fit + 1, 129, draw.below(fit + 1)))
        size = 128 if draw.chance(85) else draw.pick(ENTRY_SIZES)
        header = header._replace(part_start=start, num_parts=count, part_size=size)
    if draw.chance(20):
        return header
    length = header.num_parts * header.part_size
    start = header.part_start * b
    return header._replace(crc32_parts=crc32(image[start : start + length]) if start + length <= len(image) else 0)


def header_to_write(draw, image, b):
    """A header for the two header writes: places inside, at the end and outside the image, and sums that pass 64 bits."""
    blocks = len(image) // b
    header = lent_header(draw, image, b)
    if draw.chance(60):
        start = draw.pick((0, 1, 2, draw.below(blocks + 1)))
        header = header._replace(part_start=start, num_parts=draw.pick((0, 1, 4, 128)), part_size=draw.pick((0, 1, 127, 128, 129, 256)))
    if draw.chance(85):
        near = [0, 1, max(blocks - 1, 0), blocks, 2**64 // b]
        header = header._replace(current_lba=draw.number(64, near), backup_lba=draw.number(64, near))
    return header


def array_slot(draw, image, header, b):
    """A slot of a read array: one that a card has in use, near the entry count, or any."""
    used = list(images.used_blocks(image, b))
    if used and draw.chance(40):
        return draw.pick(used)
    return draw.number(32, [0, 1, header.num_parts]) if draw.chance(50) else draw.pick(SLOTS + [1 + draw.below(128)])


def device_write(draw, image, b):
    """Index, start block and entry size of a device write, near the image's end and near 64 bits."""
    size = draw.pick((128, 128, 1, 127, 129, 256, 4096)) if draw.chance(85) else draw.pick(ENTRY_SIZES)
    blocks = len(image) // b
    start = draw.below(blocks + 2) if draw.chance(70) else draw.number(64, [blocks, 2**64 // b])
    fit = max((len(image) - start * b) // max(size, 1), 0)
    near = [0, fit, 127, max(2**64 - start * b, 0) // max(size, 1), 2**64 // max(size, 1)]
    return draw.number(64, near), start, size


def write_entry(draw, image, b):
    """The arguments of one entry's device write."""
    index, start, size = device_write(draw, image, b)
    return draw.record(), index, start, draw.block_size(b), size


def write_zero_entries(draw, image, b):
    """The arguments of zeroing entries, with counts near the image's end, none, and too long for 64 bits."""
    index, start, size = device_write(draw, image, b)
    left = max((len(image) - start * b) // max(size, 1) - index, 0)
    room = max(2**64 - start * b - index * size, 0) // max(size, 1)
    count = draw.number(64, [0, 1, left, left, room, 2**64 // max(size, 1)])
    return index, count, start, draw.block_size(b), size


def array_call(draw, image, b):
    """The lent header and the block size of a call that reads an array."""
    return lent_header(draw, image, b), draw.block_size(b)


def array_slot_call(draw, image, b):
    """The same with a slot."""
    header, size = array_call(draw, image, b)
    return header, size, array_slot(draw, image, header, b)


def array_rows_call(draw, image, b):
    """The same with a lent row."""
    header, size = array_call(draw, image, b)
    return header, size, draw.rows(model.CALLS["gpt_count_partitions"](image, header, size)[1][0])


def list_call(draw, image, b):
    """A block size and a lent row for the listing."""
    return draw.block_size(b), draw.rows(model.CALLS["card_count_used"](image, b)[1][0])


def number_row(draw, count):
    """A lent row of 64-bit numbers: exact, one place short or longer, or of any length."""
    places = draw.pick((count, count, count, count - 1, count + 1, count + 2 + draw.below(9), 129, draw.below(12)))
    return draw.data(8 * max(places, 0))


def runs_call(draw, image, b):
    """A block size and two lent rows for the free ground; at times both are long enough."""
    count = len(runs_of(images.free_blocks(image, b)))
    if draw.chance(40):
        return draw.block_size(b), draw.data(8 * (count + draw.below(3))), draw.data(8 * (count + draw.below(3)))
    return draw.block_size(b), number_row(draw, count), number_row(draw, count)


def runs_of(blocks):
    """The blocks before which none stands in an ascending list."""
    return [block for before, block in zip([None, *blocks], blocks) if before != block - 1]


def some_map(draw):
    """A slot map: all used but for some slots, few used, or any words."""
    some = {1 + draw.below(128) for _ in range(draw.below(4))} | set(draw.pick(((), (64,), (65,), (128,), (1, 64, 65))))
    left = set(range(1, 129)) - some
    return draw.pick((maps.words(some), maps.words(left), maps.SlotMap(ALL_64, ALL_64), maps.SlotMap(draw.number(64), draw.number(64))))


def own_map(draw, image, b):
    """The map of the card's front table, or at times another."""
    return maps.words(images.used_entries(image, b)) if draw.chance(80) else some_map(draw)


def map_put_call(draw, image, b):
    """The arguments of put, and a map."""
    return *put_call(draw, image, b), own_map(draw, image, b)


def map_clear_call(draw, image, b):
    """The arguments of clear, and a map."""
    return *size_and_slot(draw, image, b), own_map(draw, image, b)


def reader_list_call(draw, image, b):
    """A block size and a lent row for the reader's listing."""
    return draw.block_size(b), draw.rows(model.CALLS["card_reader_count"](image, b)[1][0])


def next_stage_call(draw, image, b):
    """A block size, a stage and a state of an update."""
    return states.handed_in(draw, b, states.update(draw, image, b))


def next_repair_call(draw, image, b):
    """A block size, a stage and a state of a repair."""
    return states.handed_in(draw, b, states.repair(draw, image, b))


def size_only(draw, image, b):
    """A block size alone."""
    return (draw.block_size(b),)


def size_and_slot(draw, image, b):
    """A block size and a slot, or another 32-bit number."""
    return draw.block_size(b), slot(draw, image, b)


def header_write(draw, image, b):
    """The header and the block size of a header write."""
    return header_to_write(draw, image, b), draw.block_size(b)


ON_IMAGE = {
    "card_lay": lambda draw, image, b: (draw.block_size(b), draw.guid()),
    "card_check": size_only,
    "card_put": put_call,
    "card_clear": size_and_slot,
    "card_write_payload": payload,
    "card_payload_place": payload_place,
    "card_read_payload": payload,
    "card_read_label": screens.read_call,
    "card_write_label": screens.write_call,
    "card_judge": screens.judge_call,
    "card_count_used": size_only,
    "card_next_used": size_and_slot,
    "card_read_slot": size_and_slot,
    "card_nth_used": lambda draw, image, b: (draw.block_size(b), draw.number(32, [0, len(images.used_blocks(image, b))])),
    "card_list": list_call,
    "card_free_runs": runs_call,
    "card_map_make": size_only,
    "card_map_put": map_put_call,
    "card_map_clear": map_clear_call,
    "card_start_put": put_call,
    "card_start_clear": size_and_slot,
    "card_next_stage": next_stage_call,
    "card_start_repair": size_only,
    "card_next_repair": next_repair_call,
    "card_reader_copy": size_only,
    "card_reader_count": size_only,
    "card_reader_next": size_and_slot,
    "card_reader_slot": size_and_slot,
    "card_reader_list": reader_list_call,
    "gpt_read_primary_header": size_only,
    "gpt_read_backup_header": size_only,
    "gpt_partentry_checksum": array_call,
    "gpt_write_primary": header_write,
    "gpt_write_backup": header_write,
    "gpt_write_entry": write_entry,
    "gpt_write_zero_entries": write_zero_entries,
    "gpt_read_partition": array_slot_call,
    "gpt_count_partitions": array_call,
    "gpt_next_partition": array_slot_call,
    "gpt_file_read_partitions": array_rows_call,
    "gpt_uefi_read_primary_header": size_only,
    "gpt_uefi_read_backup_header": size_only,
    "gpt_uefi_count_partitions": foreign.array_call,
    "gpt_uefi_next_partition": foreign.slot_call,
    "gpt_uefi_read_partition": foreign.slot_call,
    "gpt_uefi_file_read_partitions": foreign.rows_call,
    "gpt_uefi_count_primary": size_only,
    "gpt_uefi_count_backup": size_only,
    "gpt_uefi_list_primary": foreign.list_call("primary"),
    "gpt_uefi_list_backup": foreign.list_call("backup"),
    "gpt_mbr_from_image": size_only,
    "gpt_mbr_overwrite": lambda draw, image, b: (draw.mbr(),),
    "gpt_mbr_update_conservative": lambda draw, image, b: (draw.mbr(),),
    "gpt_mbr_read_bootcode": lambda draw, image, b: (),
    "gpt_mbr_write_bootcode": lambda draw, image, b: (draw.data(440),),
    "gpt_mbr_read_disk_signature": lambda draw, image, b: (),
    "gpt_mbr_write_disk_signature": lambda draw, image, b: (draw.data(4),),
}


def slot_sum(draw, b):
    """Two pieces and a number of bytes after, near 1 MiB and near 64 bits."""
    was = draw.data(draw.pick((128,) * 9 + (0, 127, 129)))
    now = draw.pick((was, draw.data(128), draw.data(128), bytes(128), draw.data(draw.pick((0, 127, 129, 128)))))
    near_limit = (1048447, 1048448, 1048449, 2**20, 2**63, 2**64 - 128, 2**64 - 1)
    after = draw.pick((0, 1, 127, 128, 16256, 128 * draw.below(128), draw.below(3000), *near_limit))
    return draw.pick((crc32(was + bytes(min(after, 2**20))), draw.number(32))), was, now, after


def summed_data(draw):
    """Bytes to sum: none, a few, near the widths that a quick sum takes at once, a header, an entry, or any number."""
    return draw.data(draw.pick((0, 1, 3, 7, 8, 9, 15, 16, 17, 92, 128, draw.below(3000))))


def running_sum(draw, b):
    """A running value and bytes: a fresh start, an edge, the sum of other bytes, or any value."""
    before = crc32(draw.data(draw.below(40)))
    return draw.pick((FRESH, 1, 2**31, 2**32 - 1, before, draw.number(32))), summed_data(draw)


def pieces(draw, data):
    """A slice cut anywhere, at times where it was cut before, so that pieces are empty too; or cut into blocks."""
    if draw.chance(25):
        size = draw.pick((1, 16, 128, 512)) if len(data) < 600 else draw.pick((128, 512, 4096))
        return [data[place : place + size] for place in range(0, len(data), size)]
    cuts = sorted(draw.below(len(data) + 1) for _ in range(draw.pick((1, 1, 2, 3, 7))))
    cuts += cuts[-1:] if draw.chance(30) else []
    return [data[start:end] for start, end in zip([0, *cuts], [*cuts, len(data)])]


def mbr_buffer(draw, b):
    """A buffer for parsing an MBR: of one block, near it, with and without 55 AA."""
    length = draw.pick((b, b, b, b - 1, b + 1, 512, 4096, 0, 511))
    data = draw.data(length)
    if length >= 512 and draw.chance(80):
        data = data[:510] + b"\x55\xaa" + data[512:]
    elif length >= 512:
        data = data[:510] + draw.pick((b"\xaa\x55", b"\x55\x00", b"\x00\xaa", b"\x55\xab")) + data[512:]
    return data, draw.block_size(b)


def entry_bytes(draw, b):
    """Bytes of an entry, at times too few, with names that have zeros inside."""
    record = draw.record()
    raw = struct.pack("<36H", *record.name)
    data = draw.data(56) + raw + draw.data(draw.pick((0, 0, 1, 128)))
    return (data if draw.chance(75) else data[: draw.pick((0, 1, 55, 127))],)


def image_length(draw, b):
    """A length of an image and a block size."""
    return draw.number(64, [0, b, 3 * b, 3 * b + 64, 4 * b, 68 * b, 2**64 - b]), draw.block_size(b)


def range_record(draw, b):
    """A record whose block count or byte count is near 64 bits at times; that of all blocks passes 64 bits."""
    record = draw.record([0, 34, 2**64 // b, 2**64 - 1])
    return record._replace(first_lba=draw.pick((0, 0, 1)), last_lba=2**64 - 1) if draw.chance(6) else record


def any_block_size(draw, b):
    """A block size for the calls that take one beside a record."""
    return b if draw.chance(90) else draw.pick(BAD_BLOCK_SIZES)


LOOSE = {
    "card_map_lowest_free": lambda draw, b: (some_map(draw),),
    "card_map_used": lambda draw, b: (some_map(draw),),
    "gpt_crc32": lambda draw, b: (summed_data(draw),),
    "gpt_crc32_next": running_sum,
    "gpt_slot_sum": slot_sum,
    "gpt_find_backup_lba": image_length,
    "gpt_settings_new": lambda draw, b: (draw.guid(),),
    "gpt_build": lambda draw, b: (draw.settings(b), any_block_size(draw, b)),
    "gpt_build_from_header": lambda draw, b: (draw.header_to_copy(b), any_block_size(draw, b)),
    "gpt_flags_of": lambda draw, b: (draw.number(),),
    "gpt_flags_bits": lambda draw, b: (Flags(*draw.flags()),),
    "gpt_entry_from_bytes": entry_bytes,
    "gpt_entry_to_bytes": lambda draw, b: (draw.data(draw.pick((0, 1, 15, 127, 128, 129, 256, 4096, draw.below(300)))), draw.record()),
    "gpt_is_used": lambda draw, b: (draw.record(),),
    "gpt_sectors_len": lambda draw, b: (range_record(draw, b),),
    "gpt_bytes_len": lambda draw, b: (range_record(draw, b), any_block_size(draw, b)),
    "gpt_bytes_start": lambda draw, b: (range_record(draw, b), any_block_size(draw, b)),
    "gpt_mbr_new": lambda draw, b: (draw.number(32),),
    "gpt_mbr_protective_record": lambda draw, b: (draw.number(32),),
    "gpt_mbr_from_bytes": mbr_buffer,
    "gpt_mbr_record_from_bytes": lambda draw, b: (draw.data(draw.pick((16, 16, 16, 0, 15, 17, 32))),),
    "gpt_mbr_record_to_bytes": lambda draw, b: (draw.mbr_record(),),
    "gpt_mbr_to_bytes": lambda draw, b: (draw.mbr(),),
    "gpt_mbr_record": lambda draw, b: (draw.mbr(), draw.pick((0, 1, 2, 3, 4, 5, 2**32, 2**63, 2**64 - 1))),
    "gpt_mbr_set_record": lambda draw, b: (draw.mbr(), draw.pick((0, 1, 2, 3, 4, 2**32, 2**64 - 1)), draw.mbr_record()),
    **text_draws.CALLS,
}
