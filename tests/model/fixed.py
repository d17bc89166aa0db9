"""Cases with known answers, on the model and the library alike: document 01's cases at the edges, its lister example,
published check sums and what document 02 changes."""

import builder
import ends
import entries
import fixed_flags
import fixed_ground
import fixed_labels
import fixed_maps
import fixed_payload
import fixed_places
import fixed_reader
import fixed_repair
import fixed_states
import fixed_texts
import fixed_twins
import fixed_uefi
import fixed_update
import fixed_window_labels
import fixed_window_stages
import fixed_windows
import fixed_words
import ground
import headers
import mbr
import model
import windows
from known import GUID
from sums import FRESH, crc32, crc32_by_bits, crc32_next
from units import NIL

VECTORS = ((b"", 0), (b"123456789", 0xCBF43926), (b"a", 0xE8B7BE43), (bytes(32), 0x190A55AD), (b"\xff" * 32, 0xFF6CAB0B))


def build_cases():
    """P1 to P10: arguments of gpt_build, the number, and first usable, last usable and array start where accepted."""
    plain = builder.Settings(GUID, 67, 0, 0, 128, 128, 1)
    yield plain, 512, 0, (34, 34, 2)
    yield plain._replace(primary=0), 512, 0, (34, 34, 35)
    yield plain._replace(backup_lba=66), 512, 10, None
    yield plain._replace(backup_lba=11), 4096, 0, (6, 6, 2)
    yield plain._replace(backup_lba=10), 4096, 10, None
    yield plain._replace(backup_lba=0), 512, 9, None
    yield plain._replace(backup_lba=32), 512, 10, None
    yield plain._replace(last_usable=100), 512, 0, (34, 100, 2)
    yield plain._replace(num_parts=4), 512, 0, (34, 34, 2)
    yield plain._replace(num_parts=129, backup_lba=69), 512, 0, (35, 35, 2)
    yield plain._replace(num_parts=129, backup_lba=68), 512, 10, None
    yield plain._replace(part_size=33554432), 512, 3, None
    yield plain._replace(part_size=33554431), 512, 10, None


def built_fields(calls):
    """The builder's cases."""
    for settings, b, number, blocks in build_cases():
        got, values = calls["gpt_build"](settings, b)[:2]
        fields = (values[0].first_usable, values[0].last_usable, values[0].part_start) if blocks else None
        yield f"gpt_build {settings} {b}", (got, fields), (number, blocks)
        if blocks and settings.num_parts == 4:
            yield "P8", values[0].num_parts, 128


def small_cases(calls):
    """P11 to P14 and the published sums."""
    record = entries.ZERO._replace(part_type_guid=GUID)
    for first, last, number, length in ((34, 34, 0, 1), (5, 4, 20, 0), (0, 2**64 - 1, 3, 0)):
        yield "P11", calls["gpt_sectors_len"](record._replace(first_lba=first, last_lba=last))[:2], (number, (length,))
    yield "P12", calls["gpt_find_backup_lba"](1535, 512)[:2], (8, (0,))
    yield "P12", calls["gpt_find_backup_lba"](1600, 512)[:2], (0, (2,))
    entry = calls["gpt_entry_from_bytes"](bytes(range(16)) + bytes(112))[1][0]
    yield "P13", tuple(entry.part_type_guid), (0x03020100, 0x0504, 0x0706, bytes(range(8, 16)))
    protective = mbr.PartRecord(*calls["gpt_mbr_protective_record"](0xFFFFFFFF)[1])
    yield "P14", calls["gpt_mbr_record_to_bytes"](protective)[1][0], bytes.fromhex("00000200EEFFFFFF01000000FFFFFFFF")
    for data, value in VECTORS:
        yield "check sum", calls["gpt_crc32"](data)[1], (value,)


def summed(calls, pieces, running=FRESH):
    """The last running value of some pieces, each summed from the value before."""
    for piece in pieces:
        running = calls["gpt_crc32_next"](running, piece)[1][0]
    return running


def running_cases(calls):
    """Document 02, 4/13: a fresh start is 0, no bytes change nothing, and a table cut anywhere sums as one run."""
    for data, value in VECTORS:
        yield "fresh start", calls["gpt_crc32_next"](FRESH, data)[:3], (0, (value,), (data,))
        yield "byte by byte", summed(calls, [data[i : i + 1] for i in range(len(data))]), value
        for cut in range(len(data) + 1):
            yield f"cut at {cut}", summed(calls, [data[:cut], b"", data[cut:], b""]), value
    for running in (0, 1, 2**31, 0xCBF43926, 2**32 - 1):
        yield f"no bytes after {running}", calls["gpt_crc32_next"](running, b"")[:2], (0, (running,))
    yield "a, then bc", calls["gpt_crc32_next"](0xE8B7BE43, b"bc")[1], (0x352441C2,)
    for b in (512, 4096):
        image = calls["card_lay"](bytes(70 * b), b, GUID)[2][0]
        record = entries.ZERO._replace(part_type_guid=GUID, first_lba=34, last_lba=34)
        image = calls["card_put"](image, b, 128, record)[2][0]
        blocks = [image[place : place + b] for place in range(2 * b, 2 * b + 16384, b)]
        header = calls["gpt_read_primary_header"](image, b)[1][0]
        yield f"the array of a card by blocks of {b}", summed(calls, blocks), header.crc32_parts


def card_cases(calls):
    """The lister's example: 68 zero blocks, laid, slot 1 put at 34 to 34; and one block fewer."""
    image = calls["card_lay"](bytes(68 * 512), 512, GUID)[2][0]
    record = entries.ZERO._replace(part_type_guid=GUID, first_lba=34, last_lba=34)
    image = calls["card_put"](image, 512, 1, record)[2][0]
    yield "one slot", calls["card_list"](image, 512, bytes(entries.ROW))[0:3:2], (0, (image, entries.row_bytes(1, record)))
    yield "put over itself", calls["card_put"](image, 512, 1, record)[:3], (0, (0,), (image,))
    yield "overlap", calls["card_put"](image, 512, 2, record)[:2], (22, (1,))
    yield "one block fewer", calls["card_lay"](bytes(67 * 512), 512, GUID)[0], 10
    yield "signature", image[512:520], b"EFI PART"
    yield "nil type", calls["card_put"](image, 512, 1, record._replace(part_type_guid=NIL))[0], 19


PULLED = (*fixed_reader.GROUPS, *fixed_update.GROUPS, *fixed_states.GROUPS, *fixed_repair.GROUPS)
WINDOWS = (*fixed_windows.GROUPS, *fixed_window_stages.GROUPS, *fixed_window_labels.GROUPS)
SLOTS = (*fixed_twins.GROUPS, *fixed_flags.GROUPS, *fixed_places.GROUPS, fixed_ground.ground_cases, fixed_maps.map_cases, *fixed_labels.GROUPS)
TEXTS = (*fixed_texts.GROUPS, *fixed_words.GROUPS)
ON_CARDS = (card_cases, *SLOTS, *PULLED)
GROUPS = (built_fields, small_cases, running_cases, *ON_CARDS, *fixed_uefi.GROUPS, *fixed_payload.GROUPS, *WINDOWS, *TEXTS)


def wrong_in(groups, calls, before=""):
    """The cases of some groups whose answer is not the known one, and the groups that could not go on after such an answer."""
    for group in groups:
        try:
            for name, got, due in group(calls):
                if got != due:
                    yield f"{before}{name}: {got!r:.200}, and {due!r:.200} is due"
        except (IndexError, KeyError, TypeError, ValueError) as error:
            yield f"{before}{group.__module__}.{group.__name__} cannot go on: {error!r}"


def wrong(calls):
    """The fixed cases whose answer is not the known one. Document 02, 10/13: the library's card calls are tried by the same cases over windows; the
    model's calls over windows are by their definition its calls on an image."""
    yield from wrong_in(GROUPS, calls)
    if calls is not model.CALLS:
        yield from wrong_in(ON_CARDS, ends.over_windows(calls), "over windows, ")


def wrong_ways():
    """What the model answers otherwise if it puts no whole image together for its windows and counts no block one by one, as it does on
    large cards; or if the middle of its whole images has other bytes."""
    kept = windows.FEW, windows.TILE, ground.MANY
    again = (*fixed_places.GROUPS, fixed_ground.ground_cases, *fixed_reader.GROUPS, fixed_update.foreign_cases, fixed_repair.stage_cases)
    for windows.FEW, windows.TILE, ground.MANY in ((0, kept[1], 0), (kept[0], bytes(1), kept[2])):
        yield from wrong_in(WINDOWS, model.CALLS, "the other way, ")
        yield from wrong_in(again, ends.over_windows(model.CALLS), "the other way, over windows, ")
    windows.FEW, windows.TILE, ground.MANY = kept


def wrong_sums():
    """Whether the model's quick sum is not the one that document 01 defines bit by bit."""
    for length in range(0, 200, 7):
        data = bytes(range(length))
        if crc32(data) != crc32_by_bits(data):
            yield f"the quick sum of {length} bytes is not the defined one"
        for running in (FRESH, 1, 2**31, 2**32 - 1 - length, 0xCBF43926):
            if crc32_next(running, data) != crc32_by_bits(data, running):
                yield f"the quick sum of {length} bytes after {running} is not the defined one"
    if len(headers.header_bytes(headers.ZERO)) != 92:
        yield "a header is not 92 bytes"
