/* The card table for C, C++ and whatever else calls C: the card calls (card_..) and the ported calls on GPT headers, entries and the
   protective MBR (gpt_..), and calls on text (either). The library is libcard.a or libcard.so, which `make lib` writes to target/lib; it is for x86-64.

   Every call takes every number and every image of bytes: it ends, and it accepts or refuses by a number from the table below. A refused
   call changes no byte that was lent to it, and every field of its answer but the number, and the slot or the place that the number names, is zero, but for a map that
   comes back as it came.

   What a caller owes:
   - A lent slice is a pointer and then a length in bytes. The pointer points to so many bytes and is never null, also where the length is 0. A row of
     64-bit numbers, of slots, or of UTF-16 units has its length in numbers, slots or units.
   - Two slices that are lent to one call do not overlap if the call writes one of them.
   - While a call runs, nobody else writes a slice that is lent to it: no other thread, no other process and no device. A call that only reads
     a slice lets others read it too.
   - A bool is 0 or 1.
   - There are CARD_STACK bytes of stack below the caller's frame. A thread of 24 KiB can make every call, though glibc
     keeps some 4 KiB of a thread's stack for itself.
   An answer's bytes between its fields, and after the last one, hold nothing: compare answers field by field, never by memcmp.
   Nothing of this header is checked against the library's source: tests/c/boundary.c tries each call. The library keeps no state between calls.

   b is the block size, 512 or 4,096. Block numbers are called lba, slots count from 1, array places from 0. */
#ifndef CARD_H
#define CARD_H

#if !defined(__x86_64__) || defined(__ILP32__)
#error "libcard is for x86-64"
#endif

#include <stdbool.h>
#include <stddef.h>
#include <stdint.h>

#ifdef __cplusplus
#define CARD_ASSERT(fact, text) static_assert(fact, text)
extern "C" {
#else
#define CARD_ASSERT(fact, text) _Static_assert(fact, text)
#endif
#define CARD_SIZE(type, size) CARD_ASSERT(sizeof(type) == (size), "the size of " #type)
#define CARD_AT(type, field, place) CARD_ASSERT(offsetof(type, field) == (place), "the place of " #field " in " #type)

/* The version of the library that this header belongs to. */
#define CARD_VERSION "0.1.0"

/* The bytes of stack that a call needs at most. tests/c/stack.c measures every call, and makes it on a thread of 24 KiB. */
#define CARD_STACK 20480

/* The numbers that a call comes back with. A call's tests run in the order in which its numbers are listed beside it; 1 is always first. */
enum card_number {
    CARD_ACCEPTED = 0,                 /* the call did what was asked */
    CARD_BAD_BLOCK_SIZE = 1,           /* the block size is neither 512 nor 4,096 */
    CARD_SHORT = 2,                    /* the bytes to read or write are not all inside the slice */
    CARD_OVERFLOW = 3,                 /* a product or sum passes its width */
    CARD_INVALID_GPT_SIGNATURE = 4,    /* the header does not begin with EFI PART */
    CARD_INVALID_CRC32_CHECKSUM = 5,   /* the header's check sum does not match */
    CARD_PARTS_CRC = 6,                /* the entry array's check sum does not match */
    CARD_BAD_ENTRY_SIZE = 7,           /* an entry size that cannot be read or written */
    CARD_TO_SMALL_FOR_BACKUP = 8,      /* the image is shorter than three blocks */
    CARD_MISSING_BACKUP_LBA = 9,       /* the backup comes before the primary */
    CARD_BACKUP_LBA_TO_EARLY = 10,     /* there is no room between the two tables */
    CARD_WRITING_TO_WRONG_LBA = 11,    /* a primary's block is not before its backup's, or a backup's not after its primary's */
    CARD_INVALID_MBR_LENGTH = 12,      /* the buffer is not one block long */
    CARD_INVALID_MBR_SIGNATURE = 13,   /* bytes 510 and 511 are not 55 AA */
    CARD_INVALID_PARTITION_LENGTH = 14, /* the MBR record's buffer is not 16 bytes long */
    CARD_NO_ROOM = 15,                 /* more entries or runs are there than there is room for in what was lent */
    CARD_WRONG_LAYOUT = 16,            /* the table is not laid out as a card's */
    CARD_DISAGREE = 17,                /* the two tables differ */
    CARD_BAD_SLOT = 18,                /* there is no such slot or record */
    CARD_NIL_TYPE = 19,                /* a partition of no type */
    CARD_BAD_RANGE = 20,               /* the last block comes before the first */
    CARD_OUTSIDE_USABLE = 21,          /* a block outside the usable ones */
    CARD_OVERLAP = 22,                 /* a block that another slot has; the answer names the lowest such slot */
    CARD_EMPTY_SLOT = 23,              /* the slot is not used */
    CARD_PAST_PARTITION = 24,          /* the bytes pass the partition's end */
    CARD_TWIN_GUID = 25,               /* a partition GUID that another used slot has; the answer names the lowest such slot */
    CARD_WRONG_STAGE = 26,             /* the state does not lead to this stage on an image of this length and block size */
    CARD_NO_GOOD_COPY = 27,            /* neither table of the card can be read */
    CARD_RESERVED_FLAG = 28,           /* a flag that UEFI keeps reserved */
    CARD_BAD_HEADER_SIZE = 29,         /* the header's stated size is below 92 or above the block size */
    CARD_DIRTY_BLOCK = 30,             /* the header's block has other bytes than zero after the header */
    CARD_WRONG_PLACE = 31,             /* the header names another block than the one it was read from */
    CARD_WINDOW_LENGTH = 32,           /* a window is not as long as the card asks for */
    CARD_TABLE_FULL = 33,              /* all 128 slots are used */
    CARD_BAD_MARK = 34,                /* the map does not begin with the mark FBM */
    CARD_UNKNOWN_VERSION = 35,         /* the label's version is not 1 */
    CARD_BAD_DATE = 36,                /* the label's month is not 1 to 12, or its day not 1 to 31 */
    CARD_TWO_DATES = 37,               /* the maps have two dates or two style revisions */
    CARD_EMPTY_LIST = 38               /* no slot was named */
};

/* ---- what the format has */

/* A GUID by its fields. Its 16 bytes in memory are those on the card. */
typedef struct gpt_guid {
    uint32_t time_low;
    uint16_t time_mid;
    uint16_t time_high;
    uint8_t tail[8];
} gpt_guid;
CARD_SIZE(gpt_guid, 16);
CARD_AT(gpt_guid, time_low, 0);
CARD_AT(gpt_guid, time_mid, 4);
CARD_AT(gpt_guid, time_high, 6);
CARD_AT(gpt_guid, tail, 8);

/* An entry's flags by name, as UEFI divides the 64 bits: 0, 1 and 2 are the yes/no fields, 3 to 47 are reserved, and 48 to 63 are for the owner of the
   entry's type. gpt_flags_of and gpt_flags_bits split and join the bits. */
typedef struct gpt_flags {
    uint64_t reserved;    /* bits 3 to 47 as a number: bit 3 alone is 1 */
    uint16_t owner;       /* bits 48 to 63 */
    bool required;        /* bit 0: the machine needs the partition */
    bool no_block_io;     /* bit 1: firmware makes no block I/O protocol for it */
    bool legacy_bootable; /* bit 2: a legacy BIOS may boot from it */
} gpt_flags;
CARD_SIZE(gpt_flags, 16);
CARD_AT(gpt_flags, reserved, 0);
CARD_AT(gpt_flags, owner, 8);
CARD_AT(gpt_flags, required, 10);
CARD_AT(gpt_flags, no_block_io, 11);
CARD_AT(gpt_flags, legacy_bootable, 12);

/* An entry's record. The name is 36 UTF-16 units, ended by the first zero. Its bytes in memory are not those on the card: gpt_entry_from_bytes and
   gpt_entry_to_bytes convert them. */
typedef struct gpt_partition {
    gpt_guid part_type_guid;
    gpt_guid part_guid;
    uint64_t first_lba;
    uint64_t last_lba;
    gpt_flags flags;
    uint16_t name[36];
} gpt_partition;
CARD_SIZE(gpt_partition, 136);
CARD_AT(gpt_partition, part_type_guid, 0);
CARD_AT(gpt_partition, part_guid, 16);
CARD_AT(gpt_partition, first_lba, 32);
CARD_AT(gpt_partition, last_lba, 40);
CARD_AT(gpt_partition, flags, 48);
CARD_AT(gpt_partition, name, 64);

/* An entry as it stands on the card: its 128 bytes in memory are those there. flags are the 64 bits as a number, which gpt_flags_of splits. */
typedef struct gpt_entry {
    gpt_guid part_type_guid;
    gpt_guid part_guid;
    uint64_t first_lba;
    uint64_t last_lba;
    uint64_t flags;
    uint16_t name[36];
} gpt_entry;
CARD_SIZE(gpt_entry, 128);
CARD_AT(gpt_entry, part_type_guid, 0);
CARD_AT(gpt_entry, part_guid, 16);
CARD_AT(gpt_entry, first_lba, 32);
CARD_AT(gpt_entry, last_lba, 40);
CARD_AT(gpt_entry, flags, 48);
CARD_AT(gpt_entry, name, 56);

/* Major and minor revision; on the card the minor comes first. */
typedef struct gpt_revision {
    uint16_t major;
    uint16_t minor;
} gpt_revision;
CARD_SIZE(gpt_revision, 4);
CARD_AT(gpt_revision, major, 0);
CARD_AT(gpt_revision, minor, 2);

/* A header by its fields. EFI PART is no field: it is compared on reading and stored on writing. */
typedef struct gpt_header {
    gpt_revision revision;
    uint32_t header_size_le;
    uint32_t crc32;
    uint32_t reserved;
    uint64_t current_lba;
    uint64_t backup_lba;
    uint64_t first_usable;
    uint64_t last_usable;
    gpt_guid disk_guid;
    uint64_t part_start;
    uint32_t num_parts;
    uint32_t part_size;
    uint32_t crc32_parts;
} gpt_header;
CARD_SIZE(gpt_header, 88);
CARD_AT(gpt_header, revision, 0);
CARD_AT(gpt_header, header_size_le, 4);
CARD_AT(gpt_header, crc32, 8);
CARD_AT(gpt_header, reserved, 12);
CARD_AT(gpt_header, current_lba, 16);
CARD_AT(gpt_header, backup_lba, 24);
CARD_AT(gpt_header, first_usable, 32);
CARD_AT(gpt_header, last_usable, 40);
CARD_AT(gpt_header, disk_guid, 48);
CARD_AT(gpt_header, part_start, 64);
CARD_AT(gpt_header, num_parts, 72);
CARD_AT(gpt_header, part_size, 76);
CARD_AT(gpt_header, crc32_parts, 80);

/* A record of the MBR. */
typedef struct gpt_part_record {
    uint8_t boot_indicator;
    uint8_t start_head;
    uint8_t start_sector;
    uint8_t start_track;
    uint8_t os_type;
    uint8_t end_head;
    uint8_t end_sector;
    uint8_t end_track;
    uint32_t lb_start;
    uint32_t lb_size;
} gpt_part_record;
CARD_SIZE(gpt_part_record, 16);
CARD_AT(gpt_part_record, boot_indicator, 0);
CARD_AT(gpt_part_record, start_head, 1);
CARD_AT(gpt_part_record, start_sector, 2);
CARD_AT(gpt_part_record, start_track, 3);
CARD_AT(gpt_part_record, os_type, 4);
CARD_AT(gpt_part_record, end_head, 5);
CARD_AT(gpt_part_record, end_sector, 6);
CARD_AT(gpt_part_record, end_track, 7);
CARD_AT(gpt_part_record, lb_start, 8);
CARD_AT(gpt_part_record, lb_size, 12);

/* The MBR by its fields; set them as you like. Its bytes in memory are not those on the card, where the records begin at 446 and 55 AA follows them. */
typedef struct gpt_mbr {
    uint8_t bootcode[440];
    uint8_t disk_signature[4];
    uint16_t unknown;
    gpt_part_record partitions[4];
} gpt_mbr;
CARD_SIZE(gpt_mbr, 512);
CARD_AT(gpt_mbr, bootcode, 0);
CARD_AT(gpt_mbr, disk_signature, 440);
CARD_AT(gpt_mbr, unknown, 444);
CARD_AT(gpt_mbr, partitions, 448);

/* What a new header builder can be told. gpt_settings_new gives the settings that a builder begins with. */
typedef struct gpt_settings {
    gpt_guid disk_guid;
    uint64_t backup_lba;   /* 0: not set */
    uint64_t first_usable; /* the built one is this or a greater one */
    uint64_t last_usable;  /* likewise */
    uint32_t num_parts;    /* fewer than 128 become 128 */
    uint32_t part_size;
    bool primary;
} gpt_settings;
CARD_SIZE(gpt_settings, 56);
CARD_AT(gpt_settings, disk_guid, 0);
CARD_AT(gpt_settings, backup_lba, 16);
CARD_AT(gpt_settings, first_usable, 24);
CARD_AT(gpt_settings, last_usable, 32);
CARD_AT(gpt_settings, num_parts, 40);
CARD_AT(gpt_settings, part_size, 44);
CARD_AT(gpt_settings, primary, 48);

/* ---- answers: the number first */

/* Where the card check refused: the place in an answer of a card call. differs is the slot of CARD_PLACE_SLOT, the first one whose 128 bytes differ in the
   two arrays, else 0. 4, 5, 6 and 16 say the front or the back table, 16 of the entries the front one; 17 says the disk GUID, also where slots differ too, or a slot. */
enum card_place {
    CARD_PLACE_NONE = 0,
    CARD_PLACE_FRONT = 1,
    CARD_PLACE_BACK = 2,
    CARD_PLACE_DISK_GUID = 3,
    CARD_PLACE_SLOT = 4,
};

/* slot: the one that 22 and 25 name, else 0. place: an enum card_place. */
typedef struct card_answer {
    uint32_t number;
    uint32_t slot;
    uint32_t place;
    uint32_t differs;
} card_answer;
CARD_SIZE(card_answer, 16);
CARD_AT(card_answer, number, 0);
CARD_AT(card_answer, slot, 4);
CARD_AT(card_answer, place, 8);
CARD_AT(card_answer, differs, 12);

/* bytes: how many were stored, or read by card_read_payload. */
typedef struct card_stored {
    uint32_t number;
    uint32_t place;
    uint32_t differs;
    uint64_t bytes;
} card_stored;
CARD_SIZE(card_stored, 24);
CARD_AT(card_stored, number, 0);
CARD_AT(card_stored, place, 4);
CARD_AT(card_stored, differs, 8);
CARD_AT(card_stored, bytes, 16);

typedef struct card_count {
    uint32_t number;
    uint32_t count;
    uint32_t place;
    uint32_t differs;
} card_count;
CARD_SIZE(card_count, 16);
CARD_AT(card_count, number, 0);
CARD_AT(card_count, count, 4);
CARD_AT(card_count, place, 8);
CARD_AT(card_count, differs, 12);

/* slot: the next one, or 0 where there is no more. */
typedef struct card_next {
    uint32_t number;
    uint32_t slot;
    uint32_t place;
    uint32_t differs;
} card_next;
CARD_SIZE(card_next, 16);
CARD_AT(card_next, number, 0);
CARD_AT(card_next, slot, 4);
CARD_AT(card_next, place, 8);
CARD_AT(card_next, differs, 12);

/* present: whether the entry has a byte that is not zero. */
typedef struct card_slot_read {
    uint32_t number;
    bool present;
    uint32_t place;
    uint32_t differs;
    gpt_partition partition;
} card_slot_read;
CARD_SIZE(card_slot_read, 152);
CARD_AT(card_slot_read, number, 0);
CARD_AT(card_slot_read, present, 4);
CARD_AT(card_slot_read, place, 8);
CARD_AT(card_slot_read, differs, 12);
CARD_AT(card_slot_read, partition, 16);

/* found: whether there is such a used slot; where there is none, slot and partition are zero. */
typedef struct card_used_read {
    uint32_t number;
    bool found;
    uint32_t slot;
    uint32_t place;
    uint32_t differs;
    gpt_partition partition;
} card_used_read;
CARD_SIZE(card_used_read, 160);
CARD_AT(card_used_read, number, 0);
CARD_AT(card_used_read, found, 4);
CARD_AT(card_used_read, slot, 8);
CARD_AT(card_used_read, place, 12);
CARD_AT(card_used_read, differs, 16);
CARD_AT(card_used_read, partition, 24);

/* bytes: how many were stored. */
typedef struct gpt_stored {
    uint32_t number;
    uint64_t bytes;
} gpt_stored;
CARD_SIZE(gpt_stored, 16);
CARD_AT(gpt_stored, number, 0);
CARD_AT(gpt_stored, bytes, 8);

typedef struct gpt_count {
    uint32_t number;
    uint32_t count;
} gpt_count;
CARD_SIZE(gpt_count, 8);
CARD_AT(gpt_count, number, 0);
CARD_AT(gpt_count, count, 4);

/* slot: the next one, or 0 where there is no more. */
typedef struct gpt_next {
    uint32_t number;
    uint32_t slot;
} gpt_next;
CARD_SIZE(gpt_next, 8);
CARD_AT(gpt_next, number, 0);
CARD_AT(gpt_next, slot, 4);

/* present: whether the entry has a byte that is not zero. */
typedef struct gpt_slot_read {
    uint32_t number;
    bool present;
    gpt_partition partition;
} gpt_slot_read;
CARD_SIZE(gpt_slot_read, 144);
CARD_AT(gpt_slot_read, number, 0);
CARD_AT(gpt_slot_read, present, 4);
CARD_AT(gpt_slot_read, partition, 8);

/* ---- the card calls */

/* Lays an empty card for a disk GUID: the protective MBR, and both tables with 128 unused slots. No other byte changes.
   1, 8, 10. */
card_answer card_lay(uint8_t *img, size_t img_len, uint64_t b, gpt_guid guid);

/* The card check: both tables are whole, laid out as lay lays them, and say the same; each entry is all zero, or has a type and usable blocks, and no two share a
   block or a partition GUID. Block 0 is not read. A card with one GUID in two used slots is 16 to every card call but card_lay, which drops its slots. To mend it, write one of the entries with
   another GUID in both arrays (gpt_write_entry), and then both headers (gpt_write_primary, gpt_write_backup).
   1, 8, 10; 4, 5, 16, 6 of the primary table, place front; 4, 5, 16, 6 of the backup, place back; 17, place disk GUID or slot; 16, place front. Every call below
   that has the check's numbers has their places too. */
card_answer card_check(const uint8_t *img, size_t img_len, uint64_t b);

/* Puts a record into a slot of both tables; what the slot held is replaced, and the name's units after the first zero are cleared.
   The check's numbers, then 18, 19, 20, 21, 22 over all other slots, then 25 over all other slots, then 28 if flags.reserved is not 0: a record that was
   read with reserved flags is not put back before they are taken out. The other slots keep theirs. */
card_answer card_put(uint8_t *img, size_t img_len, uint64_t b, uint32_t slot, gpt_partition partition);

/* Clears a slot in both tables. An unused one is accepted. The partition's bytes stay.
   The check's numbers, then 18. */
card_answer card_clear(uint8_t *img, size_t img_len, uint64_t b, uint32_t slot);

/* Writes bytes into a slot's partition, from a place on that counts from the partition's first byte.
   The check's numbers, then 18, 23, 24. */
card_stored card_write_payload(uint8_t *img, size_t img_len, uint64_t b, uint32_t slot, size_t place, const uint8_t *bytes, size_t bytes_len);

/* How many slots are used.
   The check's numbers. */
card_count card_count_used(const uint8_t *img, size_t img_len, uint64_t b);

/* The first used slot after a slot; 0 stands before the first.
   The check's numbers. */
card_next card_next_used(const uint8_t *img, size_t img_len, uint64_t b, uint32_t after);

/* What a slot holds.
   The check's numbers, then 18. */
card_slot_read card_read_slot(const uint8_t *img, size_t img_len, uint64_t b, uint32_t slot);

/* The k-th used slot, counted from 0, ascending, with its record.
   The check's numbers. */
card_used_read card_nth_used(const uint8_t *img, size_t img_len, uint64_t b, uint32_t k);

/* One row of a listing: the slot, and its entry as it stands on the card, the name's units after the first zero cleared. */
typedef struct card_row {
    uint64_t slot;
    gpt_entry entry;
} card_row;
CARD_SIZE(card_row, 136);
CARD_AT(card_row, slot, 0);
CARD_AT(card_row, entry, 8);

/* The listing into lent bytes, after one check: a card_row for each used slot, ascending, and how many there are. The entry is that of the
   record that card_read_slot gives. The bytes after the last row stay. out is a card_row array, as bytes, or any other bytes.
   The check's numbers, then 15 where out_len is less than 136 times the count. */
card_count card_list(const uint8_t *img, size_t img_len, uint64_t b, uint8_t *out, size_t out_len);

/* How many runs of free blocks a card has at most. */
#define CARD_RUNS 129

/* The free ground into two lent rows, after one check: the maximal runs of usable blocks that no used slot has, ascending, and how many there are. starts[k]
   is the first block of run k and lengths[k] how many blocks it has. The places after the count stay. Both lengths are in numbers, not in bytes.
   The check's numbers, then 15 where either row has fewer places than there are runs. */
card_count card_free_runs(const uint8_t *img, size_t img_len, uint64_t b, uint64_t *starts, size_t starts_len, uint64_t *lengths, size_t lengths_len);

/* ---- the slot map: 128 bits beside the table, one for a used slot. It is a value: made from a card, handed to each put and clear and taken back from it. After any
   such calls it is the map that card_map_make would make again, as long as nothing else changes the table. */

/* Slot s has bit s - 1 of low, or bit s - 65 of high; it is 1 where the slot is used. */
typedef struct card_slot_map {
    uint64_t low;
    uint64_t high;
} card_slot_map;
CARD_SIZE(card_slot_map, 16);
CARD_AT(card_slot_map, low, 0);
CARD_AT(card_slot_map, high, 8);

/* place and differs as in a card_answer; the map beside a refusal is zero. */
typedef struct card_map_made {
    uint32_t number;
    uint32_t place;
    uint32_t differs;
    card_slot_map map;
} card_map_made;
CARD_SIZE(card_map_made, 32);
CARD_AT(card_map_made, number, 0);
CARD_AT(card_map_made, place, 4);
CARD_AT(card_map_made, differs, 8);
CARD_AT(card_map_made, map, 16);

/* The map beside a refusal is the one that was handed in. */
typedef struct card_carried {
    card_answer answer;
    card_slot_map map;
} card_carried;
CARD_SIZE(card_carried, 32);
CARD_AT(card_carried, answer, 0);
CARD_AT(card_carried, map, 16);

/* The map of a card.
   The check's numbers. */
card_map_made card_map_make(const uint8_t *img, size_t img_len, uint64_t b);

/* card_put, and the map with the slot's bit set where it is accepted. Whether the map is this card's is not looked at.
   As card_put. */
card_carried card_map_put(uint8_t *img, size_t img_len, uint64_t b, uint32_t slot, gpt_partition partition, card_slot_map map);

/* card_clear, and the map with the slot's bit cleared where it is accepted.
   As card_clear. */
card_carried card_map_clear(uint8_t *img, size_t img_len, uint64_t b, uint32_t slot, card_slot_map map);

/* The lowest free slot of a map.
   33. */
gpt_next card_map_lowest_free(card_slot_map map);

/* How many slots of a map are used. */
uint32_t card_map_used(card_slot_map map);

/* ---- the labels of maps: the partition of a map begins with 13 bytes, the mark FBM, a version of 16 bits that is 1, the year (16), the month and the day (8 each), the
   style revision (16) and the sheet number (16), each least byte first. Month is 1 to 12 and day 1 to 31, in any month; year, style revision and sheet are any number.

   A label is payload. Between the stages of an update these calls answer by the card check, as every plain call does. */

typedef struct card_label {
    uint16_t year;
    uint8_t month;
    uint8_t day;
    uint16_t style;
    uint16_t sheet;
} card_label;
CARD_SIZE(card_label, 8);
CARD_AT(card_label, year, 0);
CARD_AT(card_label, month, 2);
CARD_AT(card_label, day, 3);
CARD_AT(card_label, style, 4);
CARD_AT(card_label, sheet, 6);

/* place and differs as in a card_answer; the label beside a refusal is zero. */
typedef struct card_label_read {
    uint32_t number;
    uint32_t place;
    uint32_t differs;
    card_label label;
} card_label_read;
CARD_SIZE(card_label_read, 20);
CARD_AT(card_label_read, number, 0);
CARD_AT(card_label_read, place, 4);
CARD_AT(card_label_read, differs, 8);
CARD_AT(card_label_read, label, 12);

/* slot: by 18, 23 and 34 to 37 the slot of the list that is refused, as it was given, else 0. place and differs as in a card_answer; the date and the style revision
   beside a refusal are zero. */
typedef struct card_judged {
    uint32_t number;
    uint32_t slot;
    uint32_t place;
    uint32_t differs;
    uint16_t year;
    uint8_t month;
    uint8_t day;
    uint16_t style;
} card_judged;
CARD_SIZE(card_judged, 24);
CARD_AT(card_judged, number, 0);
CARD_AT(card_judged, slot, 4);
CARD_AT(card_judged, place, 8);
CARD_AT(card_judged, differs, 12);
CARD_AT(card_judged, year, 16);
CARD_AT(card_judged, month, 18);
CARD_AT(card_judged, day, 19);
CARD_AT(card_judged, style, 20);

/* The label of a slot's partition.
   The check's numbers, then 18, 23, 34, 35, 36. */
card_label_read card_read_label(const uint8_t *img, size_t img_len, uint64_t b, uint32_t slot);

/* Writes a label, with the mark and version 1, at the start of a slot's partition: 13 bytes, and no other byte changes. What was written reads back.
   The check's numbers, then 18, 23, 36. */
card_answer card_write_label(uint8_t *img, size_t img_len, uint64_t b, uint32_t slot, card_label label);

/* Whether the maps of the slots of a list have one date and one style revision, and which. The sheet is not compared. A slot that is named twice is judged as one, and the
   order of an accepted list does not matter. A refused one names the first slot in the list's order that fails or differs from the first. slots_len is in slots, not in bytes.
   1, 38 where slots_len is 0, the check's numbers; then slot by slot 18, 23, 34, 35, 36, and 37 for another date or another style revision than the first slot's. */
card_judged card_judge(const uint8_t *img, size_t img_len, uint64_t b, const uint32_t *slots, size_t slots_len);

/* The same on two windows (see card_window_check), for cards in files of any size. The maps are in no window, so the labels are handed in: read 13 bytes of the card where
   card_window_payload_place says that the slot's first 13 bytes stand. Bytes for a slot that is refused by 18 or 23 are not looked at.
   One label: the check's numbers on windows, then 18, 23, 2 where fewer than 13 bytes are lent, 34, 35, 36. Bytes after the 13th are not looked at. */
card_label_read card_window_read_label(const uint8_t *head, size_t head_len, const uint8_t *tail, size_t tail_len, uint64_t blocks, uint64_t b, uint32_t slot, const uint8_t *label, size_t label_len);

/* A set, with 13 bytes a slot in the list's order. A slot that is named twice is judged as one, by the label at its first place; its later places have their 13 bytes too,
   which are not looked at.
   1, 38 where slots_len is 0, the check's other numbers on windows, 2 where labels_len is not 13 times slots_len; then slot by slot 18, 23, 34, 35, 36, 37. */
card_judged card_window_judge(const uint8_t *head, size_t head_len, const uint8_t *tail, size_t tail_len, uint64_t blocks, uint64_t b, const uint32_t *slots, size_t slots_len, const uint8_t *labels, size_t labels_len);

/* ---- the pulled card: put, clear and repair in stages of one block store each, and the reader of a card that was pulled between them

   A put or a clear has four stages. With N blocks, img_len / b, and A blocks of the array, 16,384 / b, each changes one block and no other byte:
     1  block N - 1 - A + (slot - 1) * 128 / b, the slot's bytes in the back array     2  block N - 1, the back header
     3  block 2 + (slot - 1) * 128 / b, the slot's bytes in the front array            4  block 1, the front header
   A card that is pulled before, between or after them is read by the reader as exactly the old table or exactly the new one: the old one up to stage two, the
   new one from stage three on. After stage four the image is what card_put or card_clear would have left. All this rests on two premises, which no call can see:
   - A block is stored wholly or not at all.
   - Nothing else writes the image between the stages.
   What a host owes:
   - Have the device store what a stage changed, flushed and not only handed over, before the next stage is made, and at the latest between stages two and three.
     A device that keeps only one of the first two stages and only one of the last two leaves a card that the reader refuses by 27.
   - Hand each state to the next stage once, and drop it. A state is a value, and 26 cannot see a stale copy of one. Where a staged put was finished and another put came
     after it, the first one's old states at stages two and four leave a card that the reader refuses by 27.
   - Repair only what card_check refuses. A repair begins with zeros in the header that the reader does not take: of a whole card it first destroys the back header, and
     a cut then leaves a card that every plain call refuses, though the reader still shows its table.
   - Hand a card to a tablet only after stage four or a finished repair. Between the stages the plain calls answer by the card check, which may refuse. */

/* back: whether the reader takes the back table, since the front one does not pass. */
typedef struct card_copy {
    uint32_t number;
    bool back;
} card_copy;
CARD_SIZE(card_copy, 8);
CARD_AT(card_copy, number, 0);
CARD_AT(card_copy, back, 4);

/* Which table the reader takes: the front one if its header, layout, array and entries pass, else the back one by the same tests. Of a card that card_check accepts it is the
   front one.
   1, 8, 10, 27 where neither passes. */
card_copy card_reader_copy(const uint8_t *img, size_t img_len, uint64_t b);

/* How many slots of that table are used.
   1, 8, 10, 27. */
gpt_count card_reader_count(const uint8_t *img, size_t img_len, uint64_t b);

/* The first used slot of that table after a slot; 0 stands before the first.
   1, 8, 10, 27. */
gpt_next card_reader_next(const uint8_t *img, size_t img_len, uint64_t b, uint32_t after);

/* What a slot of that table holds.
   1, 8, 10, 27, 18. */
gpt_slot_read card_reader_slot(const uint8_t *img, size_t img_len, uint64_t b, uint32_t slot);

/* That table's listing into lent bytes, as card_list makes it of a whole card.
   1, 8, 10, 27, 15 where out_len is less than 136 times the count. */
gpt_count card_reader_list(const uint8_t *img, size_t img_len, uint64_t b, uint8_t *out, size_t out_len);

/* A put or a clear between its stages: the next stage, from 2 to 4, or 5 where it is finished; what stage one fixed, which is the slot, its 128 bytes, the disk GUID and
   the check sum of the new array; and the block size and the length in bytes of the image that it began on. */
typedef struct card_update {
    uint32_t next;
    uint32_t slot;
    uint64_t b;
    size_t len;
    uint8_t entry[128];
    gpt_guid guid;
    uint32_t parts;
} card_update;
CARD_SIZE(card_update, 176);
CARD_AT(card_update, next, 0);
CARD_AT(card_update, slot, 4);
CARD_AT(card_update, b, 8);
CARD_AT(card_update, len, 16);
CARD_AT(card_update, entry, 24);
CARD_AT(card_update, guid, 152);
CARD_AT(card_update, parts, 168);

/* slot, place and differs as in a card_answer; the state beside a refusal is zero, and leads to no stage. */
typedef struct card_update_step {
    uint32_t number;
    uint32_t slot;
    uint32_t place;
    uint32_t differs;
    card_update state;
} card_update_step;
CARD_SIZE(card_update_step, 192);
CARD_AT(card_update_step, number, 0);
CARD_AT(card_update_step, slot, 4);
CARD_AT(card_update_step, place, 8);
CARD_AT(card_update_step, differs, 12);
CARD_AT(card_update_step, state, 16);

/* Stage one of a put: the state for stage two.
   As card_put. */
card_update_step card_start_put(uint8_t *img, size_t img_len, uint64_t b, uint32_t slot, gpt_partition partition);

/* Stage one of a clear: the state for stage two.
   As card_clear. */
card_update_step card_start_clear(uint8_t *img, size_t img_len, uint64_t b, uint32_t slot);

/* Stage two, three or four of a put or a clear: the state for the next one. It looks at the state, the block size and the length alone; of the image it reads nothing.
   1, 26 if stage is not the state's next, b or img_len are not the state's, or the state holds a slot, a block size, a length or a stage that no accepted stage one leads
   to. The slot's bytes, the GUID and the sum are stored as they stand. */
card_update_step card_next_stage(uint8_t *img, size_t img_len, uint64_t b, uint32_t stage, card_update state);

/* A repair between its stages: the next stage, from 2 to A + 2, or A + 3 where it is finished; whether the back table is the good one; the block size and the length in
   bytes of the image that it began on; and the disk GUID and the array's check sum of the good table. */
typedef struct card_repair {
    uint32_t next;
    bool back;
    uint64_t b;
    size_t len;
    gpt_guid guid;
    uint32_t parts;
} card_repair;
CARD_SIZE(card_repair, 48);
CARD_AT(card_repair, next, 0);
CARD_AT(card_repair, back, 4);
CARD_AT(card_repair, b, 8);
CARD_AT(card_repair, len, 16);
CARD_AT(card_repair, guid, 24);
CARD_AT(card_repair, parts, 40);

/* slot, place and differs are zero; the state beside a refusal is zero too, and leads to no stage. */
typedef struct card_repair_step {
    uint32_t number;
    uint32_t slot;
    uint32_t place;
    uint32_t differs;
    card_repair state;
} card_repair_step;
CARD_SIZE(card_repair_step, 64);
CARD_AT(card_repair_step, number, 0);
CARD_AT(card_repair_step, slot, 4);
CARD_AT(card_repair_step, place, 8);
CARD_AT(card_repair_step, differs, 12);
CARD_AT(card_repair_step, state, 16);

/* Stage one of a repair, which gives the table that the reader does not take the disk GUID and the array of the one that it takes, under the header that card_lay has
   there. It has A + 2 stages, 34 with blocks of 512 bytes and 6 with 4,096: zeros in the other table's header block, the blocks of its array ascending, its header. The header is in
   block N - 1 and the array begins in block N - 1 - A, or where state.back is true in blocks 1 and 2. A cut between the stages never changes what the reader
   shows.
   1, 8, 10, 27. */
card_repair_step card_start_repair(uint8_t *img, size_t img_len, uint64_t b);

/* A later stage of a repair, from 2 to A + 2: the state for the next one. An array block is copied from the good table as the image has it then.
   1, 26 as card_next_stage. */
card_repair_step card_next_repair(uint8_t *img, size_t img_len, uint64_t b, uint32_t stage, card_repair state);

/* ---- a card by two windows: for cards that are larger than memory

   With A blocks of the array, 16,384 / b, and N blocks of the card, the head is the card's blocks 0 to A + 1, which are block 0 and the front table: b + b + 16,384 bytes. The tail is
   its last A + 1 blocks, the back table: b + 16,384 bytes. So block k of the card stands in the head at k * b, and block N - 1 - A + k in the tail at k * b. blocks is N, the card's whole
   number of blocks. A call on windows answers as the call of the same name on a whole image of so many blocks, and leaves the windows as those blocks would be left, whatever the middle
   holds. Of the label calls, to which the labels are handed in, the numbers are said there. Head and tail do not overlap.
   Its numbers: 1; 3 if blocks times b passes 64 bits; 8 and 10 by blocks; 32 if either window is not exactly that long; then the numbers of the call on an image. In a later stage:
   1, 26 (blocks times b, as a whole number, is the length that the state must name), then 32. 3 and 32 name no place. */

/* card_lay: the MBR and the front table in the head, the back table in the tail. Of block 0 the bytes after the MBR's 512 stay.
   1, 3, 8, 10, 32. */
card_answer card_window_lay(uint8_t *head, size_t head_len, uint8_t *tail, size_t tail_len, uint64_t blocks, uint64_t b, gpt_guid guid);

/* card_check.
   1, 3, 8, 10, 32; 4, 5, 16, 6 of the primary table, place front; 4, 5, 16, 6 of the backup, place back; 17, place disk GUID or slot; 16, place front. These are the check's numbers on
   windows. */
card_answer card_window_check(const uint8_t *head, size_t head_len, const uint8_t *tail, size_t tail_len, uint64_t blocks, uint64_t b);

/* card_put.
   The check's numbers on windows, then 18, 19, 20, 21, 22, 25, 28. */
card_answer card_window_put(uint8_t *head, size_t head_len, uint8_t *tail, size_t tail_len, uint64_t blocks, uint64_t b, uint32_t slot, gpt_partition partition);

/* card_clear.
   The check's numbers on windows, then 18. */
card_answer card_window_clear(uint8_t *head, size_t head_len, uint8_t *tail, size_t tail_len, uint64_t blocks, uint64_t b, uint32_t slot);

/* card_count_used.
   The check's numbers on windows. */
card_count card_window_count_used(const uint8_t *head, size_t head_len, const uint8_t *tail, size_t tail_len, uint64_t blocks, uint64_t b);

/* card_next_used.
   The check's numbers on windows. */
card_next card_window_next_used(const uint8_t *head, size_t head_len, const uint8_t *tail, size_t tail_len, uint64_t blocks, uint64_t b, uint32_t after);

/* card_read_slot.
   The check's numbers on windows, then 18. */
card_slot_read card_window_read_slot(const uint8_t *head, size_t head_len, const uint8_t *tail, size_t tail_len, uint64_t blocks, uint64_t b, uint32_t slot);

/* card_nth_used.
   The check's numbers on windows. */
card_used_read card_window_nth_used(const uint8_t *head, size_t head_len, const uint8_t *tail, size_t tail_len, uint64_t blocks, uint64_t b, uint32_t k);

/* card_list.
   The check's numbers on windows, then 15 where out_len is less than 136 times the count. */
card_count card_window_list(const uint8_t *head, size_t head_len, const uint8_t *tail, size_t tail_len, uint64_t blocks, uint64_t b, uint8_t *out, size_t out_len);

/* card_free_runs: the runs of the whole card, also of its middle.
   The check's numbers on windows, then 15 where either row has fewer places than there are runs. */
card_count card_window_free_runs(const uint8_t *head, size_t head_len, const uint8_t *tail, size_t tail_len, uint64_t blocks, uint64_t b, uint64_t *starts, size_t starts_len, uint64_t *lengths, size_t lengths_len);

/* card_map_make.
   The check's numbers on windows. */
card_map_made card_window_map_make(const uint8_t *head, size_t head_len, const uint8_t *tail, size_t tail_len, uint64_t blocks, uint64_t b);

/* card_reader_copy: which window's array is the good one. It stands in the head at 2b, or in the tail at 0, 16,384 bytes.
   1, 3, 8, 10, 32, 27. */
card_copy card_window_reader_copy(const uint8_t *head, size_t head_len, const uint8_t *tail, size_t tail_len, uint64_t blocks, uint64_t b);

/* card_reader_count.
   1, 3, 8, 10, 32, 27. */
gpt_count card_window_reader_count(const uint8_t *head, size_t head_len, const uint8_t *tail, size_t tail_len, uint64_t blocks, uint64_t b);

/* card_reader_next.
   1, 3, 8, 10, 32, 27. */
gpt_next card_window_reader_next(const uint8_t *head, size_t head_len, const uint8_t *tail, size_t tail_len, uint64_t blocks, uint64_t b, uint32_t after);

/* card_reader_slot.
   1, 3, 8, 10, 32, 27, 18. */
gpt_slot_read card_window_reader_slot(const uint8_t *head, size_t head_len, const uint8_t *tail, size_t tail_len, uint64_t blocks, uint64_t b, uint32_t slot);

/* card_reader_list.
   1, 3, 8, 10, 32, 27, 15 where out_len is less than 136 times the count. */
gpt_count card_window_reader_list(const uint8_t *head, size_t head_len, const uint8_t *tail, size_t tail_len, uint64_t blocks, uint64_t b, uint8_t *out, size_t out_len);

/* card_start_put. Stages one and two change one block of the tail each, stages three and four one of the head; the host has the device store it. The premises and what a host owes are those of
   the stages on an image.
   As card_window_put. */
card_update_step card_window_start_put(uint8_t *head, size_t head_len, uint8_t *tail, size_t tail_len, uint64_t blocks, uint64_t b, uint32_t slot, gpt_partition partition);

/* card_start_clear.
   As card_window_clear. */
card_update_step card_window_start_clear(uint8_t *head, size_t head_len, uint8_t *tail, size_t tail_len, uint64_t blocks, uint64_t b, uint32_t slot);

/* card_next_stage. A state of windows leads on by a whole image of so many blocks too, and the other way round.
   1, 26, 32. */
card_update_step card_window_next_stage(uint8_t *head, size_t head_len, uint8_t *tail, size_t tail_len, uint64_t blocks, uint64_t b, uint32_t stage, card_update state);

/* card_start_repair: every stage changes the tail, or where state.back is true the head.
   1, 3, 8, 10, 32, 27. */
card_repair_step card_window_start_repair(uint8_t *head, size_t head_len, uint8_t *tail, size_t tail_len, uint64_t blocks, uint64_t b);

/* card_next_repair: an array block is copied from one window into the other.
   1, 26, 32. */
card_repair_step card_window_next_repair(uint8_t *head, size_t head_len, uint8_t *tail, size_t tail_len, uint64_t blocks, uint64_t b, uint32_t stage, card_repair state);

/* ---- payload in files */

/* at: the byte place in the card, counted from its first byte. */
typedef struct card_spot {
    uint32_t number;
    uint32_t place;
    uint32_t differs;
    uint64_t at;
} card_spot;
CARD_SIZE(card_spot, 24);
CARD_AT(card_spot, number, 0);
CARD_AT(card_spot, place, 4);
CARD_AT(card_spot, differs, 8);
CARD_AT(card_spot, at, 16);

/* Where n bytes at a place of a slot's partition stand in the card, which is where card_write_payload would store them.
   The check's numbers, on windows those on windows, then 18, 23, 24. */
card_spot card_payload_place(const uint8_t *img, size_t img_len, uint64_t b, uint32_t slot, size_t place, size_t n);
card_spot card_window_payload_place(const uint8_t *head, size_t head_len, const uint8_t *tail, size_t tail_len, uint64_t blocks, uint64_t b, uint32_t slot, size_t place, size_t n);

/* Reads out_len bytes at a place of a slot's partition into out: the answer's bytes is out_len.
   The check's numbers, then 18, 23, 24; a refused call changes no byte of out. */
card_stored card_read_payload(const uint8_t *img, size_t img_len, uint64_t b, uint32_t slot, size_t place, uint8_t *out, size_t out_len);

/* ---- the ported calls: the check sum and headers */

/* CRC-32/ISO-HDLC; of no bytes it is 0. It is gpt_crc32_next from 0. */
uint32_t gpt_crc32(const uint8_t *bytes, size_t bytes_len);

/* The sum that goes on over bytes: running is the sum of the bytes before them, or 0, a fresh start, where there are none. Pieces that are summed one after
   the other, each from the answer before it, give the sum of all their bytes, wherever they are cut. A piece of no bytes leaves running as it is. */
uint32_t gpt_crc32_next(uint32_t running, const uint8_t *bytes, size_t bytes_len);

typedef struct gpt_header_read {
    uint32_t number;
    gpt_header header;
} gpt_header_read;
CARD_SIZE(gpt_header_read, 96);
CARD_AT(gpt_header_read, number, 0);
CARD_AT(gpt_header_read, header, 8);

/* The primary header, at byte b.
   1, 2, 4, 5. */
gpt_header_read gpt_read_primary_header(const uint8_t *img, size_t img_len, uint64_t b);

/* The backup header, in the last whole block.
   1, 8, 4, 5. */
gpt_header_read gpt_read_backup_header(const uint8_t *img, size_t img_len, uint64_t b);

typedef struct gpt_block {
    uint32_t number;
    uint64_t lba;
} gpt_block;
CARD_SIZE(gpt_block, 16);
CARD_AT(gpt_block, number, 0);
CARD_AT(gpt_block, lba, 8);

/* The block of the backup header in an image of len bytes.
   1, 8. */
gpt_block gpt_find_backup_lba(size_t len, uint64_t b);

typedef struct gpt_sum {
    uint32_t number;
    uint32_t sum;
} gpt_sum;
CARD_SIZE(gpt_sum, 8);
CARD_AT(gpt_sum, number, 0);
CARD_AT(gpt_sum, sum, 4);

/* The check sum of the entry array that a header names; an empty array is summed anywhere.
   1, 3 (its start), 2. */
gpt_sum gpt_partentry_checksum(const uint8_t *img, size_t img_len, gpt_header header, uint64_t b);

/* The check sum of an entry array after one slot of it, from the sum before: sum was right while the slot held the 128 bytes of was, and now it
   holds those of is; after bytes of the array follow the slot. The array itself is not read.
   2 where was or is has another length, 3 where 128 and after pass 1,048,576. */
gpt_sum gpt_slot_sum(uint32_t sum, const uint8_t *was, size_t was_len, const uint8_t *is, size_t is_len, size_t after);

/* bytes: how many were stored; header: with its new sums. */
typedef struct gpt_header_written {
    uint32_t number;
    uint64_t bytes;
    gpt_header header;
} gpt_header_written;
CARD_SIZE(gpt_header_written, 104);
CARD_AT(gpt_header_written, number, 0);
CARD_AT(gpt_header_written, bytes, 8);
CARD_AT(gpt_header_written, header, 16);

/* Stores a primary header as one whole block in its current_lba, with both sums new and reserved as 0.
   1, 11 unless current_lba < backup_lba, 3 and 2 of the array, 3 and 2 of the header's block. */
gpt_header_written gpt_write_primary(uint8_t *img, size_t img_len, gpt_header header, uint64_t b);

/* The same of a backup header.
   1, 11 unless current_lba > backup_lba, 3 and 2 of the array, 3 and 2 of the header's block. */
gpt_header_written gpt_write_backup(uint8_t *img, size_t img_len, gpt_header header, uint64_t b);

/* ---- the ported calls: the header builder */

/* The settings of a new builder: a primary header in block 1, 128 entries of 128 bytes, the backup not set. */
gpt_settings gpt_settings_new(gpt_guid guid);

/* The header that a new builder gives with these settings: revision 1.0, 92 bytes, sums and reserved 0. The primary is in block 1.
   1, 9, 3 (count times size passes 32 bits), 10, 10, 3 (the array's start). */
gpt_header_read gpt_build(gpt_settings settings, uint64_t b);

/* The same of a builder that was copied from a header: which is the primary, both blocks, the usable blocks and the array's shape are the
   header's, and an entry count below 128 stays. The numbers are those of gpt_build. */
gpt_header_read gpt_build_from_header(gpt_header header, uint64_t b);

/* ---- the ported calls: partition entries */

typedef struct gpt_entry_read {
    uint32_t number;
    gpt_partition partition;
} gpt_entry_read;
CARD_SIZE(gpt_entry_read, 144);
CARD_AT(gpt_entry_read, number, 0);
CARD_AT(gpt_entry_read, partition, 8);

/* The flags in 64 bits, whatever they are. */
gpt_flags gpt_flags_of(uint64_t bits);

typedef struct gpt_flag_bits {
    uint32_t number;
    uint64_t bits;
} gpt_flag_bits;
CARD_SIZE(gpt_flag_bits, 16);
CARD_AT(gpt_flag_bits, number, 0);
CARD_AT(gpt_flag_bits, bits, 8);

/* The 64 bits of flags. Those of flags that gpt_flags_of gave are the bits that it took.
   28 if reserved needs more than 45 bits. */
gpt_flag_bits gpt_flags_bits(gpt_flags flags);

/* The record in the first 128 bytes; its name's units after the first zero are cleared.
   2. */
gpt_entry_read gpt_entry_from_bytes(const uint8_t *bytes, size_t bytes_len);

/* The record's 128 bytes, cut or filled with zeros to out_len. The answer is the number alone.
   28 if flags.reserved needs more than 45 bits, whatever out_len is. */
uint32_t gpt_entry_to_bytes(uint8_t *out, size_t out_len, gpt_partition partition);

/* Whether the type is not all zero. */
bool gpt_is_used(gpt_partition partition);

typedef struct gpt_length {
    uint32_t number;
    uint64_t length;
} gpt_length;
CARD_SIZE(gpt_length, 16);
CARD_AT(gpt_length, number, 0);
CARD_AT(gpt_length, length, 8);

/* How many blocks the partition has.
   20, 3. */
gpt_length gpt_sectors_len(gpt_partition partition);

/* How many bytes.
   1, 20, 3, 3. */
gpt_length gpt_bytes_len(gpt_partition partition, uint64_t b);

typedef struct gpt_place {
    uint32_t number;
    uint64_t place;
} gpt_place;
CARD_SIZE(gpt_place, 16);
CARD_AT(gpt_place, number, 0);
CARD_AT(gpt_place, place, 8);

/* The place of its first byte in the image.
   1, 3. */
gpt_place gpt_bytes_start(gpt_partition partition, uint64_t b);

/* Stores the record as entry index, counted from 0, of an array of entries of entry_size bytes that starts in block start_lba.
   1, 7 (0, or above 4,096), 28 if flags.reserved needs more than 45 bits, 3, 2. */
gpt_stored gpt_write_entry(uint8_t *img, size_t img_len, gpt_partition partition, uint64_t index, uint64_t start_lba, uint64_t b, uint32_t entry_size);

/* Stores zeros over count entries from entry index on. No entries are accepted at any place that does not overflow.
   1, 7, 3, 2. */
gpt_stored gpt_write_zero_entries(uint8_t *img, size_t img_len, uint64_t index, uint64_t count, uint64_t start_lba, uint64_t b, uint32_t entry_size);

/* The entry in a slot of the array that a header names.
   1, 3, 7 (not 128), 2, 6, 18. */
gpt_slot_read gpt_read_partition(const uint8_t *img, size_t img_len, gpt_header header, uint64_t b, uint32_t slot);

/* How many entries of that array are present: not 128 zero bytes.
   1, 3, 7, 2, 6. */
gpt_count gpt_count_partitions(const uint8_t *img, size_t img_len, gpt_header header, uint64_t b);

/* The first present slot of that array after a slot; 0 stands before the first.
   1, 3, 7, 2, 6. */
gpt_next gpt_next_partition(const uint8_t *img, size_t img_len, gpt_header header, uint64_t b, uint32_t after);

/* The present entries of that array into lent bytes: a card_row for each, ascending, and how many there are. The entry is that of the record that
   gpt_read_partition gives. The bytes after the last row stay.
   1, 3, 7, 2, 6, 15 where out_len is less than 136 times the count. */
gpt_count gpt_file_read_partitions(const uint8_t *img, size_t img_len, gpt_header header, uint64_t b, uint8_t *out, size_t out_len);

/* ---- the second reading edition: tables of other makers, by UEFI. Header and array are read as above but for this: the header states its size, from 92 bytes to the block
   size, and its check sum covers that many bytes; the bytes after them in its block are zero; it stands in the block that it names as its own; an entry has 128 bytes
   times a power of two, up to 4,096, of which those after 128 are passed over; and an entry is absent exactly if its type is nil. Nothing else is asked of a header: not its revision, its
   reserved bytes, nor the block of the other one. The card calls, lay and check among them, stay with the first edition. */

/* The primary header, in block 1.
   1, 2 (the block), 4, 29, 5, 30, 31. */
gpt_header_read gpt_uefi_read_primary_header(const uint8_t *img, size_t img_len, uint64_t b);

/* The backup header, in the last whole block.
   1, 8, 4, 29, 5, 30, 31. */
gpt_header_read gpt_uefi_read_backup_header(const uint8_t *img, size_t img_len, uint64_t b);

/* The entry in a slot of the array that a header names. Of an absent one the record is zero, whatever its bytes are.
   1, 7 (not 128 times a power of two up to 4,096), 3, 2, 6, 18. */
gpt_slot_read gpt_uefi_read_partition(const uint8_t *img, size_t img_len, gpt_header header, uint64_t b, uint32_t slot);

/* How many entries of that array are present: their type is not nil.
   1, 7, 3, 2, 6. */
gpt_count gpt_uefi_count_partitions(const uint8_t *img, size_t img_len, gpt_header header, uint64_t b);

/* The first present slot of that array after a slot; 0 stands before the first.
   1, 7, 3, 2, 6. */
gpt_next gpt_uefi_next_partition(const uint8_t *img, size_t img_len, gpt_header header, uint64_t b, uint32_t after);

/* The present entries of that array into lent bytes: a card_row for each, ascending, and how many there are. The bytes after the last row stay.
   1, 7, 3, 2, 6, 15 where out_len is less than 136 times the count. */
gpt_count gpt_uefi_file_read_partitions(const uint8_t *img, size_t img_len, gpt_header header, uint64_t b, uint8_t *out, size_t out_len);

/* The same two with header and array in one call, of the primary table and of the backup: the header's numbers, and then 7, 3, 2, 6; of the two that list also 15. */
gpt_count gpt_uefi_count_primary(const uint8_t *img, size_t img_len, uint64_t b);
gpt_count gpt_uefi_count_backup(const uint8_t *img, size_t img_len, uint64_t b);
gpt_count gpt_uefi_list_primary(const uint8_t *img, size_t img_len, uint64_t b, uint8_t *out, size_t out_len);
gpt_count gpt_uefi_list_backup(const uint8_t *img, size_t img_len, uint64_t b, uint8_t *out, size_t out_len);

/* ---- the ported calls: the protective MBR */

/* The MBR of a disk with lb_size blocks after block 0; FFFFFFFF where there are more. */
gpt_mbr gpt_mbr_new(uint32_t lb_size);

/* The protective record of such a disk. */
gpt_part_record gpt_mbr_protective_record(uint32_t lb_size);

typedef struct gpt_mbr_read {
    uint32_t number;
    gpt_mbr mbr;
} gpt_mbr_read;
CARD_SIZE(gpt_mbr_read, 516);
CARD_AT(gpt_mbr_read, number, 0);
CARD_AT(gpt_mbr_read, mbr, 4);

/* The MBR in a buffer of one block.
   1, 12, 13. */
gpt_mbr_read gpt_mbr_from_bytes(const uint8_t *buf, size_t buf_len, uint64_t b);

/* The MBR in block 0 of an image.
   1, 2, 13. */
gpt_mbr_read gpt_mbr_from_image(const uint8_t *img, size_t img_len, uint64_t b);

typedef struct gpt_record_read {
    uint32_t number;
    gpt_part_record part_record;
} gpt_record_read;
CARD_SIZE(gpt_record_read, 20);
CARD_AT(gpt_record_read, number, 0);
CARD_AT(gpt_record_read, part_record, 4);

/* The record in a buffer of 16 bytes.
   14. */
gpt_record_read gpt_mbr_record_from_bytes(const uint8_t *buf, size_t buf_len);

typedef struct gpt_record_bytes {
    uint8_t bytes[16];
} gpt_record_bytes;
CARD_SIZE(gpt_record_bytes, 16);
CARD_AT(gpt_record_bytes, bytes, 0);

gpt_record_bytes gpt_mbr_record_to_bytes(gpt_part_record part_record);

typedef struct gpt_mbr_bytes {
    uint8_t bytes[512];
} gpt_mbr_bytes;
CARD_SIZE(gpt_mbr_bytes, 512);
CARD_AT(gpt_mbr_bytes, bytes, 0);

/* The MBR's bytes 0 to 511, as they stand on a card. */
gpt_mbr_bytes gpt_mbr_to_bytes(gpt_mbr mbr);

/* The record at a place from 0 to 3.
   18. */
gpt_record_read gpt_mbr_record(gpt_mbr mbr, size_t place);

/* old: the record that stood there; mbr: with the new one. */
typedef struct gpt_record_set {
    uint32_t number;
    gpt_part_record old;
    gpt_mbr mbr;
} gpt_record_set;
CARD_SIZE(gpt_record_set, 532);
CARD_AT(gpt_record_set, number, 0);
CARD_AT(gpt_record_set, old, 4);
CARD_AT(gpt_record_set, mbr, 20);

/* The MBR with a record set at a place from 0 to 3. A refusal has no MBR in it: its bytes are zero.
   18. */
gpt_record_set gpt_mbr_set_record(gpt_mbr mbr, size_t place, gpt_part_record part_record);

/* Stores the MBR over bytes 0 to 511, whatever the block size is.
   2. */
gpt_stored gpt_mbr_overwrite(uint8_t *img, size_t img_len, gpt_mbr mbr);

/* Stores its four records and 55 AA over bytes 446 to 511.
   2. */
gpt_stored gpt_mbr_update_conservative(uint8_t *img, size_t img_len, gpt_mbr mbr);

typedef struct gpt_bootcode_read {
    uint32_t number;
    uint8_t bootcode[440];
} gpt_bootcode_read;
CARD_SIZE(gpt_bootcode_read, 444);
CARD_AT(gpt_bootcode_read, number, 0);
CARD_AT(gpt_bootcode_read, bootcode, 4);

typedef struct gpt_bootcode {
    uint8_t bytes[440];
} gpt_bootcode;
CARD_SIZE(gpt_bootcode, 440);
CARD_AT(gpt_bootcode, bytes, 0);

/* Bytes 0 to 439 of an image, read and written.
   2. */
gpt_bootcode_read gpt_mbr_read_bootcode(const uint8_t *img, size_t img_len);
gpt_stored gpt_mbr_write_bootcode(uint8_t *img, size_t img_len, gpt_bootcode bootcode);

typedef struct gpt_signature_read {
    uint32_t number;
    uint8_t disk_signature[4];
} gpt_signature_read;
CARD_SIZE(gpt_signature_read, 8);
CARD_AT(gpt_signature_read, number, 0);
CARD_AT(gpt_signature_read, disk_signature, 4);

typedef struct gpt_signature {
    uint8_t bytes[4];
} gpt_signature;
CARD_SIZE(gpt_signature, 4);
CARD_AT(gpt_signature, bytes, 0);

/* Bytes 440 to 443 of an image, read and written.
   2. */
gpt_signature_read gpt_mbr_read_disk_signature(const uint8_t *img, size_t img_len);
gpt_stored gpt_mbr_write_disk_signature(uint8_t *img, size_t img_len, gpt_signature signature);

/* ---- text */

/* Two numbers that only the text calls give. at is then the place of the byte, counted from 0, from which on the text is refused. */
enum card_text_number {
    CARD_BAD_TEXT = 39, /* the text is no GUID, or no UTF-8, or has a zero in it */
    CARD_LONG_NAME = 40 /* the name has more than 36 UTF-16 units */
};

/* Bytes that are always enough for a text and the zero behind it. */
#define CARD_MESSAGE_SIZE 160
#define GPT_GUID_TEXT_SIZE 37
#define GPT_NAME_TEXT_SIZE 109

typedef struct card_version_numbers {
    uint32_t major;
    uint32_t minor;
    uint32_t patch;
} card_version_numbers;
CARD_SIZE(card_version_numbers, 12);
CARD_AT(card_version_numbers, major, 0);
CARD_AT(card_version_numbers, minor, 4);
CARD_AT(card_version_numbers, patch, 8);

/* length: of the text that was stored, without the zero behind it. */
typedef struct card_text {
    uint32_t number;
    size_t length;
} card_text;
CARD_SIZE(card_text, 16);
CARD_AT(card_text, number, 0);
CARD_AT(card_text, length, 8);

typedef struct gpt_guid_of_text {
    uint32_t number;
    size_t at;
    gpt_guid guid;
} gpt_guid_of_text;
CARD_SIZE(gpt_guid_of_text, 32);
CARD_AT(gpt_guid_of_text, number, 0);
CARD_AT(gpt_guid_of_text, at, 8);
CARD_AT(gpt_guid_of_text, guid, 16);

typedef struct gpt_name_of_text {
    uint32_t number;
    size_t at;
    uint16_t name[36];
} gpt_name_of_text;
CARD_SIZE(gpt_name_of_text, 88);
CARD_AT(gpt_name_of_text, number, 0);
CARD_AT(gpt_name_of_text, at, 8);
CARD_AT(gpt_name_of_text, name, 16);

/* The version of the library that runs, as CARD_VERSION is the one of this header. */
card_version_numbers card_version(void);

/* The words of a number in an answer, with the place and the slot that it names, as "refused 22, Overlap: a block that another slot has (slot 1)", stored with a zero behind them.
   number: from an answer; "accepted" is said of 0, and of a number that is in neither table that the library has no such number. place: an enum card_place, or 0; one that the number does
   not have is left out. slot: the one that the answer names, or differs where place is CARD_PLACE_SLOT, or 0; card_answer_message picks it. A slot that is not 0 is told, but for an accepted
   call, beside a table or the disk GUIDs, and for a number that the library does not have.
   2 where out has no room for the words and the zero. */
card_text card_message(char *out, size_t out_len, uint32_t number, uint32_t place, uint32_t slot);

/* The words of a card call's answer. */
static inline card_text card_answer_message(char *out, size_t out_len, card_answer answer) {
    return card_message(out, out_len, answer.number, answer.place, answer.place == CARD_PLACE_SLOT ? answer.differs : answer.slot);
}

/* The text of a GUID, 36 characters as "ebd0a0a2-b9e5-4433-87c0-68b6b72699c7", stored with a zero behind it.
   2 where out has no room for both. */
card_text gpt_guid_to_text(char *out, size_t out_len, gpt_guid guid);

/* The GUID of such a text, with digits of either case. text_len counts no zero behind it; braces and blanks are no part of the form.
   39: at is the first wrong byte; a text that is too short is wrong where it ends, and one that is too long at 36. */
gpt_guid_of_text gpt_guid_from_text(const char *text, size_t text_len);

/* A name in UTF-8, stored with a zero behind it: its units before the first zero, at most 36 of those lent; what stands behind the 36th is not looked at. name_len counts units. A surrogate without its
   partner is told as U+FFFD.
   2 where out has no room for both. */
card_text gpt_name_to_utf8(char *out, size_t out_len, const uint16_t *name, size_t name_len);

/* The name of a text in UTF-8, for a gpt_partition: its UTF-16 units, and zeros up to 36. text_len counts no zero behind it; the empty text is the empty name.
   39: at is the first byte of what is no character of UTF-8 (no overlong form, no surrogate, nothing past U+10FFFF), or of a zero; 40: at is the first byte of the character that does not fit.
   The text is read from its start: what comes first is said. */
gpt_name_of_text gpt_name_from_utf8(const char *text, size_t text_len);

#ifdef __cplusplus
}
#endif
#endif
