"""How often each number, and each of several tests with one number, was seen; and which must be seen, from card.h and the
documents."""

from collections import Counter

import utf

CHECK = {0, 1, 8, 10, 4, 5, 16, 6, 17}
UEFI_PRIMARY = {0, 1, 2, 4, 29, 5, 30, 31}
UEFI_BACKUP = {0, 1, 8, 4, 29, 5, 30, 31}
UEFI_ARRAY = {0, 1, 7, 3, 2, 6}
READER = {0, 1, 8, 10, 27}
PUT = CHECK | {18, 19, 20, 21, 22, 25, 28}
WINDOW = {3, 32}
NUMBERS = {
    "card_lay": {0, 1, 8, 10},
    "card_check": CHECK,
    "card_put": CHECK | {18, 19, 20, 21, 22, 25, 28},
    "card_clear": CHECK | {18},
    "card_write_payload": CHECK | {18, 23, 24},
    "card_payload_place": CHECK | {18, 23, 24},
    "card_read_payload": CHECK | {18, 23, 24},
    "card_count_used": CHECK,
    "card_next_used": CHECK,
    "card_read_slot": CHECK | {18},
    "card_nth_used": CHECK,
    "card_list": CHECK | {15},
    "card_free_runs": CHECK | {15},
    "card_map_make": CHECK,
    "card_map_put": CHECK | {18, 19, 20, 21, 22, 25, 28},
    "card_map_clear": CHECK | {18},
    "card_map_lowest_free": {0, 33},
    "card_map_used": {0},
    "card_start_put": CHECK | {18, 19, 20, 21, 22, 25, 28},
    "card_start_clear": CHECK | {18},
    "card_next_stage": {0, 1, 26},
    "card_start_repair": READER,
    "card_next_repair": {0, 1, 26},
    "card_reader_copy": READER,
    "card_reader_count": READER,
    "card_reader_next": READER,
    "card_reader_slot": READER | {18},
    "card_reader_list": READER | {15},
    "card_window_lay": WINDOW | {0, 1, 8, 10},
    "card_window_check": WINDOW | CHECK,
    "card_window_put": WINDOW | PUT,
    "card_window_clear": WINDOW | CHECK | {18},
    "card_window_count_used": WINDOW | CHECK,
    "card_window_next_used": WINDOW | CHECK,
    "card_window_read_slot": WINDOW | CHECK | {18},
    "card_window_nth_used": WINDOW | CHECK,
    "card_window_list": WINDOW | CHECK | {15},
    "card_window_free_runs": WINDOW | CHECK | {15},
    "card_window_map_make": WINDOW | CHECK,
    "card_window_reader_copy": WINDOW | READER,
    "card_window_reader_count": WINDOW | READER,
    "card_window_reader_next": WINDOW | READER,
    "card_window_reader_slot": WINDOW | READER | {18},
    "card_window_reader_list": WINDOW | READER | {15},
    "card_window_start_put": WINDOW | PUT,
    "card_window_start_clear": WINDOW | CHECK | {18},
    # A later stage has 26 in place of 3, 8 and 10.
    "card_window_next_stage": {0, 1, 26, 32},
    "card_window_start_repair": WINDOW | READER,
    "card_window_next_repair": {0, 1, 26, 32},
    "card_window_payload_place": WINDOW | CHECK | {18, 23, 24},
    "card_read_label": CHECK | {18, 23, 34, 35, 36},
    "card_write_label": CHECK | {18, 23, 36},
    "card_judge": CHECK | {38, 18, 23, 34, 35, 36, 37},
    "card_window_read_label": WINDOW | CHECK | {18, 23, 2, 34, 35, 36},
    "card_window_judge": WINDOW | CHECK | {38, 2, 18, 23, 34, 35, 36, 37},
    "gpt_crc32": {0},
    "gpt_crc32_next": {0},
    "gpt_read_primary_header": {0, 1, 2, 4, 5},
    "gpt_read_backup_header": {0, 1, 8, 4, 5},
    "gpt_find_backup_lba": {0, 1, 8},
    "gpt_partentry_checksum": {0, 1, 3, 2},
    "gpt_slot_sum": {0, 2, 3},
    "gpt_write_primary": {0, 1, 11, 3, 2},
    "gpt_write_backup": {0, 1, 11, 3, 2},
    "gpt_settings_new": {0},
    "gpt_build": {0, 1, 9, 3, 10},
    # A builder that was copied from a header has the lower of its two blocks as the primary, so 9 cannot come.
    "gpt_build_from_header": {0, 1, 3, 10},
    "gpt_flags_of": {0},
    "gpt_flags_bits": {0, 28},
    "gpt_entry_from_bytes": {0, 2},
    "gpt_entry_to_bytes": {0, 28},
    "gpt_is_used": {0},
    "gpt_sectors_len": {0, 20, 3},
    "gpt_bytes_len": {0, 1, 20, 3},
    "gpt_bytes_start": {0, 1, 3},
    "gpt_write_entry": {0, 1, 7, 28, 3, 2},
    "gpt_write_zero_entries": {0, 1, 7, 3, 2},
    "gpt_read_partition": {0, 1, 3, 7, 2, 6, 18},
    "gpt_count_partitions": {0, 1, 3, 7, 2, 6},
    "gpt_next_partition": {0, 1, 3, 7, 2, 6},
    "gpt_file_read_partitions": {0, 1, 3, 7, 2, 6, 15},
    "gpt_uefi_read_primary_header": UEFI_PRIMARY,
    # The backup's block always fits.
    "gpt_uefi_read_backup_header": UEFI_BACKUP,
    "gpt_uefi_count_partitions": UEFI_ARRAY,
    "gpt_uefi_next_partition": UEFI_ARRAY,
    "gpt_uefi_read_partition": UEFI_ARRAY | {18},
    "gpt_uefi_file_read_partitions": UEFI_ARRAY | {15},
    "gpt_uefi_count_primary": UEFI_PRIMARY | UEFI_ARRAY,
    "gpt_uefi_count_backup": UEFI_BACKUP | UEFI_ARRAY,
    "gpt_uefi_list_primary": UEFI_PRIMARY | UEFI_ARRAY | {15},
    "gpt_uefi_list_backup": UEFI_BACKUP | UEFI_ARRAY | {15},
    "gpt_mbr_new": {0},
    "gpt_mbr_protective_record": {0},
    "gpt_mbr_from_bytes": {0, 1, 12, 13},
    "gpt_mbr_from_image": {0, 1, 2, 13},
    "gpt_mbr_record_from_bytes": {0, 14},
    "gpt_mbr_record_to_bytes": {0},
    "gpt_mbr_to_bytes": {0},
    "gpt_mbr_record": {0, 18},
    "gpt_mbr_set_record": {0, 18},
    "gpt_mbr_overwrite": {0, 2},
    "gpt_mbr_update_conservative": {0, 2},
    "gpt_mbr_read_bootcode": {0, 2},
    "gpt_mbr_write_bootcode": {0, 2},
    "gpt_mbr_read_disk_signature": {0, 2},
    "gpt_mbr_write_disk_signature": {0, 2},
    "card_version": {0},
    "card_message": {0, 2},
    "gpt_guid_to_text": {0, 2},
    "gpt_guid_from_text": {0, 39},
    "gpt_name_to_utf8": {0, 2},
    "gpt_name_from_utf8": {0, 39, 40},
}
CHECKED = {name for name, numbers in NUMBERS.items() if CHECK <= numbers}
WINDOWED = {name for name, numbers in NUMBERS.items() if 32 in numbers}
PLACES = {(number, place) for number in (4, 5, 16, 6) for place in (1, 2)} | {(17, 3), (17, 4)}
CHECK_STEPS = {(number, side) for number in (4, 5, 16, 6) for side in ("front", "back")} | {
    (17, "disk GUID"),
    (17, "disk GUID and arrays"),
    (17, "one slot"),
    (17, "several slots"),
    (17, "bytes alone"),
    (16, "nil type with bytes"),
    (16, "last below first"),
    (16, "outside usable"),
    (16, "two share a block"),
    (16, "two share a GUID"),
}
PUT_STEPS = {
    (21, "first"),
    (21, "last"),
    (22, "with 25 of a lower slot"),
    (25, "nil"),
    (25, "not nil"),
    (28, "45 bits"),
    (28, "more than 45 bits"),
}
# Which test the back failed when neither copy is good, and each cause of 26 where it is the only one.
BACK_STEPS = {(27, f"{number} {step}") for number, step in CHECK_STEPS if number != 17 and step != "front"}
REPAIR_STEPS = {
    (26, "not the next stage"),
    (26, "another block size"),
    (26, "another length"),
    (26, "no such stage"),
    (26, "too short"),
}
PRODUCTS = {(3, step) for step in ("start product", "index product", "sum of the products", "end")}
WRITES = {(3, "array start"), (2, "array"), (3, "own place"), (2, "own place")}
BUILDS = {(3, "count times size"), (10, "backup too early"), (10, "first above last"), (3, "array start")}
LENGTHS = {(32, "head"), (32, "tail")}
NO_DATES = {(36, "month"), (36, "day")}
TWO_DATES = {(37, "date"), (37, "style revision")}
NO_GUIDS = {(39, step) for step in ("digit", "dash", "short", "long")}
# Why a text is no UTF-8, and what the character is that does not fit: of one unit, or of two with room for none or for one.
NO_UTF8 = {(39, step) for step in ("first byte", "later byte", "cut", "zero", *utf.LEFT_OUT.values())}
NO_FIT = {(40, step) for step in ("unit", "pair", "half of a pair")}
STEPS = {name: LENGTHS for name in WINDOWED} | {
    "card_read_label": NO_DATES,
    "card_write_label": NO_DATES,
    "card_judge": NO_DATES | TWO_DATES,
    "card_window_read_label": LENGTHS | NO_DATES,
    "card_window_judge": LENGTHS | NO_DATES | TWO_DATES,
    "card_window_put": LENGTHS | PUT_STEPS,
    "card_window_free_runs": LENGTHS | {(15, "starts"), (15, "lengths")},
    "card_window_next_stage": LENGTHS | REPAIR_STEPS | {(26, "no such slot")},
    "card_window_next_repair": LENGTHS | REPAIR_STEPS,
    "card_check": CHECK_STEPS,
    "card_put": CHECK_STEPS | PUT_STEPS,
    "card_free_runs": {(15, "starts"), (15, "lengths")},
    "card_start_put": CHECK_STEPS | PUT_STEPS,
    "card_next_stage": REPAIR_STEPS | {(26, "no such slot")},
    "card_next_repair": REPAIR_STEPS,
    "card_reader_copy": BACK_STEPS,
    "gpt_slot_sum": {(2, "was"), (2, "is")},
    "gpt_write_primary": WRITES,
    "gpt_write_backup": WRITES,
    "gpt_build": BUILDS,
    "gpt_build_from_header": BUILDS,
    "gpt_bytes_len": {(3, "count"), (3, "product")},
    "gpt_uefi_read_primary_header": {(29, "below 92"), (29, "above B")},
    "gpt_uefi_read_backup_header": {(29, "below 92"), (29, "above B")},
    "gpt_uefi_count_partitions": {(7, "above 4,096"), (7, "up to 4,096")},
    "gpt_write_entry": PRODUCTS,
    "gpt_write_zero_entries": PRODUCTS | {(3, "zeroed length")},
    "gpt_guid_from_text": NO_GUIDS,
    "gpt_name_from_utf8": NO_UTF8 | NO_FIT,
}


class Coverage:
    """Counts of what the model answered to some calls, or to all."""

    def __init__(self, names=NUMBERS):
        self.numbers = {name: Counter() for name in names}
        self.steps = {name: Counter() for name in names}
        self.places = {name: Counter() for name in names}

    def saw(self, name, number, step, where):
        """One compared call."""
        self.numbers[name][number] += 1
        if step:
            self.steps[name][number, step] += 1
        if where[0] or name in CHECKED and number in {numbered for numbered, _ in PLACES}:
            self.places[name][number, where[0]] += 1

    def total(self):
        """How many calls were compared."""
        return sum(sum(counts.values()) for counts in self.numbers.values())

    def table(self):
        """One line for each call: how often each of its numbers was seen, in the order of the numbers."""
        for name, counts in self.numbers.items():
            seen = "  ".join(f"{number}: {counts[number]}" for number in sorted(NUMBERS[name] | set(counts)))
            yield f"{name:30}{seen}"

    def missing(self):
        """What must be seen and was not, and any number that a call may not give."""
        for name, seen in self.numbers.items():
            for number in sorted(NUMBERS[name] - set(seen)):
                yield f"{name}: {number} was never seen"
            for number in sorted(set(seen) - NUMBERS[name]):
                yield f"{name}: {number} is not one of its numbers"
        for name, seen in self.steps.items():
            for number, step in sorted(STEPS.get(name, set()) - set(seen)):
                yield f"{name}: {number} ({step}) was never seen"
        for name, seen in self.places.items():
            due = PLACES if name in CHECKED else set()
            for number, place in sorted(due - set(seen)):
                yield f"{name}: {number} at place {place} was never seen"
            for number, place in sorted(set(seen) - due):
                yield f"{name}: {number} has no place {place}"
