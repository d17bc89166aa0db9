/* Every call of include/card.h, across the boundary: each field that goes in has a value of its own and is looked for where it must come
   out, in the image or in the answer, and each kind of answer is seen refused too. It ends with "boundary: N values ok", or with exit
   status 1 after a line for each value that differs. Build: see tests/c/README.md. */
#include "card.h"
#include <stdio.h>
#include <stdlib.h>
#include <string.h>

#define BLOCK 512
#define BLOCKS 70
#define LEN (BLOCKS * BLOCK)
#define MOST UINT64_MAX

static unsigned seen, wrong;
static uint8_t img[LEN], before[LEN];

static void same_at(int line, const char *what, uint64_t got, uint64_t want) {
    seen++;
    if (got == want) return;
    wrong++;
    printf("line %d: %s is %llu, not %llu\n", line, what, (unsigned long long)got, (unsigned long long)want);
}
#define SAME(got, want) same_at(__LINE__, #got, (uint64_t)(got), (uint64_t)(want))

static void bytes_at(int line, const char *what, const void *got, const void *want, size_t n) {
    seen++;
    if (memcmp(got, want, n) == 0) return;
    wrong++;
    printf("line %d: %s is not as it must be\n", line, what);
}
#define BYTES(got, want, n) bytes_at(__LINE__, #got, got, want, n)
#define KEPT() BYTES(img, before, LEN)

static void zeros_at(int line, const char *what, const void *got, size_t n) {
    static const uint8_t none[1024];
    bytes_at(line, what, got, none, n);
}
#define ZEROS(got, n) zeros_at(__LINE__, #got, got, n)

static const gpt_guid disk = {0x03020100, 0x0504, 0x0706, {8, 9, 10, 11, 12, 13, 14, 15}};

/* A record with these blocks, and with a GUID by the first of them. */
static gpt_partition some(uint64_t first, uint64_t last) {
    gpt_partition p = {
        .part_type_guid = {0xA3A2A1A0, 0xA5A4, 0xA7A6, {0xA8, 0xA9, 0xAA, 0xAB, 0xAC, 0xAD, 0xAE, 0xAF}},
        .part_guid = {(uint32_t)(0xB3B2B1B0 + first), 0xB5B4, 0xB7B6, {0xB8, 0xB9, 0xBA, 0xBB, 0xBC, 0xBD, 0xBE, 0xBF}},
        .first_lba = first,
        .last_lba = last,
        .flags = {.reserved = 0, .owner = 0xC7C6, .required = true, .no_block_io = false, .legacy_bootable = true},
    };
    for (int i = 0; i < 36; i++) p.name[i] = (uint16_t)(0x4E00 + i);
    return p;
}

static uint64_t le(const uint8_t *at, int n) {
    uint64_t x = 0;
    while (n-- > 0) x = x << 8 | at[n];
    return x;
}

/* A record as it must stand on the card, made here and by no call of the library. */
static gpt_entry stands(gpt_partition p) {
    gpt_entry e = {.part_type_guid = p.part_type_guid, .part_guid = p.part_guid, .first_lba = p.first_lba, .last_lba = p.last_lba};
    e.flags = p.flags.required | p.flags.no_block_io << 1 | p.flags.legacy_bootable << 2 | p.flags.reserved << 3 | (uint64_t)p.flags.owner << 48;
    memcpy(e.name, p.name, sizeof e.name);
    return e;
}

/* The bytes at a place are the record's. */
static void stands_at(int line, const char *what, const uint8_t *at, gpt_partition want) {
    gpt_entry e = stands(want);
    bytes_at(line, what, at, &e, 128);
}
#define STANDS(at, want) stands_at(__LINE__, #at, (const uint8_t *)(at), want)

/* A record came back field by field: its struct has bytes that hold nothing. */
static void record_at(int line, const char *what, gpt_partition got, gpt_partition want) {
    gpt_entry e = stands(got), f = stands(want);
    bytes_at(line, what, &e, &f, 128);
    same_at(line, what, got.flags.reserved, want.flags.reserved);
    same_at(line, what, got.flags.owner, want.flags.owner);
    same_at(line, what, got.flags.required << 2 | got.flags.no_block_io << 1 | got.flags.legacy_bootable,
            want.flags.required << 2 | want.flags.no_block_io << 1 | want.flags.legacy_bootable);
}
#define RECORD(got, want) record_at(__LINE__, #got, got, want)

/* Another record's flags. */
static gpt_partition with_flags(gpt_partition p, gpt_flags flags) {
    p.flags = flags;
    return p;
}

static const gpt_partition no_record;

static void cards(void) {
    card_answer a = card_lay(img, LEN, 1024, disk);
    SAME(a.number, CARD_BAD_BLOCK_SIZE);
    SAME(a.slot, 0);
    a = card_lay(img, 67 * BLOCK, BLOCK, disk);
    SAME(a.number, CARD_BACKUP_LBA_TO_EARLY);
    KEPT();
    a = card_lay(img, LEN, BLOCK, disk);
    SAME(a.number, 0);
    BYTES(img + BLOCK, "EFI PART", 8);
    for (int i = 0; i < 16; i++) SAME(img[BLOCK + 56 + i], i);
    SAME(le(img + BLOCK + 32, 8), BLOCKS - 1);
    SAME(card_check(img, LEN, BLOCK).number, 0);
    SAME(card_check(img, LEN, 4096).number, CARD_BACKUP_LBA_TO_EARLY);
    SAME(card_count_used(img, LEN, BLOCK).count, 0);
    SAME(card_next_used(img, LEN, BLOCK, 0).slot, 0);
}

/* Puts p in slot 7 and q in slot 128. */
static void puts_two(void) {
    gpt_partition p = some(35, 36), q = some(34, 34);
    SAME(card_put(img, LEN, BLOCK, 129, p).number, CARD_BAD_SLOT);
    SAME(card_put(img, LEN, BLOCK, 1, some(36, 35)).number, CARD_BAD_RANGE);
    SAME(card_put(img, LEN, BLOCK, 1, some(33, 35)).number, CARD_OUTSIDE_USABLE);
    SAME(card_put(img, LEN, BLOCK, 7, p).number, 0);
    STANDS(img + 2 * BLOCK + 6 * 128, p);
    STANDS(img + (BLOCKS - 33) * BLOCK + 6 * 128, p);
    memcpy(before, img, LEN);
    card_answer a = card_put(img, LEN, BLOCK, 2, some(34, 35));
    SAME(a.number, CARD_OVERLAP);
    SAME(a.slot, 7);
    KEPT();
    SAME(card_put(img, LEN, BLOCK, 128, q).number, 0);
}

/* Stores an entry in both arrays and both headers with their new sums, by the ported calls alone. */
static void store_both(gpt_partition p, uint64_t index) {
    gpt_header front = gpt_read_primary_header(img, LEN, BLOCK).header, back = gpt_read_backup_header(img, LEN, BLOCK).header;
    SAME(gpt_write_entry(img, LEN, p, index, front.part_start, BLOCK, 128).number, 0);
    SAME(gpt_write_entry(img, LEN, p, index, back.part_start, BLOCK, 128).number, 0);
    SAME(gpt_write_primary(img, LEN, front, BLOCK).number, 0);
    SAME(gpt_write_backup(img, LEN, back, BLOCK).number, 0);
}

/* Slots 7 and 128 with one partition GUID: put does not make such a card, every card call but lay refuses it, and the ported calls read and mend it. */
static void twins(void) {
    gpt_partition p = some(35, 36), q = some(34, 34), twin = q;
    twin.part_guid = p.part_guid;
    memcpy(before, img, LEN);
    card_answer a = card_put(img, LEN, BLOCK, 128, twin);
    SAME(a.number, CARD_TWIN_GUID);
    SAME(a.slot, 7);
    KEPT();
    SAME(card_put(img, LEN, BLOCK, 128, q).number, 0);
    KEPT();
    store_both(twin, 127);
    a = card_check(img, LEN, BLOCK);
    SAME(a.number, CARD_WRONG_LAYOUT);
    SAME(a.slot, 0);
    SAME(card_clear(img, LEN, BLOCK, 128).number, CARD_WRONG_LAYOUT);
    SAME(card_put(img, LEN, BLOCK, 128, q).number, CARD_WRONG_LAYOUT);
    SAME(card_count_used(img, LEN, BLOCK).number, CARD_WRONG_LAYOUT);
    gpt_header front = gpt_read_primary_header(img, LEN, BLOCK).header;
    SAME(gpt_count_partitions(img, LEN, front, BLOCK).count, 2);
    gpt_slot_read r = gpt_read_partition(img, LEN, front, BLOCK, 128);
    SAME(r.present, 1);
    RECORD(r.partition, twin);
    store_both(q, 127);
    SAME(card_check(img, LEN, BLOCK).number, 0);
    KEPT();
}

/* Each part of the flags by itself, the widest reserved part and one that is too wide: split, joined, in an entry written alone, and in a put. */
static void flags(void) {
    static const struct {
        uint64_t bits;
        gpt_flags named;
    } known[] = {
        {1, {.required = true}},
        {2, {.no_block_io = true}},
        {4, {.legacy_bootable = true}},
        {8, {.reserved = 1}},
        {1ull << 47, {.reserved = 1ull << 44}},
        {1ull << 48, {.owner = 1}},
        {1ull << 63 | 1, {.required = true, .owner = 0x8000}},
        {MOST, {.reserved = (1ull << 45) - 1, .owner = 0xFFFF, .required = true, .no_block_io = true, .legacy_bootable = true}},
    };
    uint8_t bytes[128];
    memcpy(before, img, LEN);
    for (size_t i = 0; i < sizeof known / sizeof *known; i++) {
        gpt_partition p = with_flags(some(35, 36), known[i].named);
        RECORD(with_flags(p, gpt_flags_of(known[i].bits)), p);
        SAME(gpt_flags_bits(p.flags).number, 0);
        SAME(gpt_flags_bits(p.flags).bits, known[i].bits);
        SAME(gpt_entry_to_bytes(bytes, 128, p), 0);
        SAME(le(bytes + 48, 8), known[i].bits);
        RECORD(gpt_entry_from_bytes(bytes, 128).partition, p);
        SAME(card_put(img, LEN, BLOCK, 7, p).number, p.flags.reserved ? CARD_RESERVED_FLAG : 0);
    }
    SAME(card_put(img, LEN, BLOCK, 7, some(35, 36)).number, 0);
    KEPT();
    gpt_partition wide = with_flags(some(36, 36), (gpt_flags){.reserved = 1ull << 45});
    gpt_partition twin = wide;
    twin.part_guid = some(34, 34).part_guid;
    SAME(gpt_flags_bits(wide.flags).number, CARD_RESERVED_FLAG);
    SAME(gpt_flags_bits(wide.flags).bits, 0);
    memset(bytes, 0x77, sizeof bytes);
    SAME(gpt_entry_to_bytes(bytes, 0, wide), CARD_RESERVED_FLAG);
    SAME(gpt_entry_to_bytes(bytes, 128, wide), CARD_RESERVED_FLAG);
    SAME(le(bytes + 120, 8), 0x7777777777777777);
    SAME(gpt_write_entry(img, LEN, wide, 0, MOST, BLOCK, 4097).number, CARD_BAD_ENTRY_SIZE);
    SAME(gpt_write_entry(img, LEN, wide, 0, MOST, BLOCK, 128).number, CARD_RESERVED_FLAG);
    SAME(card_put(img, LEN, BLOCK, 129, wide).number, CARD_BAD_SLOT);
    SAME(card_put(img, LEN, BLOCK, 1, wide).number, CARD_OVERLAP);
    SAME(card_put(img, LEN, BLOCK, 7, twin).number, CARD_TWIN_GUID);
    SAME(card_put(img, LEN, BLOCK, 7, wide).number, CARD_RESERVED_FLAG);
    KEPT();
}

/* Every call that begins with the check says the same number and place. */
#define AT(x, p, d) do { SAME((x).place, p); SAME((x).differs, d); } while (0)
static void all_at(uint32_t number, uint32_t place, uint32_t differs) {
    uint8_t rows[136];
    uint64_t starts[1], lengths[1];
    const card_slot_map none = {0, 0};
    card_answer a = card_check(img, LEN, BLOCK);
    SAME(a.number, number);
    SAME(a.slot, 0);
    AT(a, place, differs);
    AT(card_put(img, LEN, BLOCK, 1, some(34, 34)), place, differs);
    AT(card_clear(img, LEN, BLOCK, 1), place, differs);
    AT(card_write_payload(img, LEN, BLOCK, 1, 0, rows, 1), place, differs);
    AT(card_payload_place(img, LEN, BLOCK, 1, 0, 1), place, differs);
    AT(card_read_payload(img, LEN, BLOCK, 1, 0, rows, 1), place, differs);
    AT(card_count_used(img, LEN, BLOCK), place, differs);
    AT(card_next_used(img, LEN, BLOCK, 0), place, differs);
    AT(card_read_slot(img, LEN, BLOCK, 1), place, differs);
    AT(card_nth_used(img, LEN, BLOCK, 0), place, differs);
    AT(card_list(img, LEN, BLOCK, rows, sizeof rows), place, differs);
    AT(card_free_runs(img, LEN, BLOCK, starts, 1, lengths, 1), place, differs);
    AT(card_map_make(img, LEN, BLOCK), place, differs);
    AT(card_map_put(img, LEN, BLOCK, 1, some(34, 34), none).answer, place, differs);
    AT(card_map_clear(img, LEN, BLOCK, 1, none).answer, place, differs);
    AT(card_read_label(img, LEN, BLOCK, 1), place, differs);
    AT(card_write_label(img, LEN, BLOCK, 1, (card_label){0, 1, 1, 0, 0}), place, differs);
    AT(card_judge(img, LEN, BLOCK, (const uint32_t[]){1}, 1), place, differs);
    AT(card_start_put(img, LEN, BLOCK, 1, some(34, 34)), place, differs);
    AT(card_start_clear(img, LEN, BLOCK, 1), place, differs);
}

/* One array or header changed, its sums made right by the ported calls where that is asked for: which table, and where. The image is given back as it was. */
static void places(void) {
    gpt_header front = gpt_read_primary_header(img, LEN, BLOCK).header, back = gpt_read_backup_header(img, LEN, BLOCK).header;
    memcpy(before, img, LEN);
    img[BLOCK] ^= 1;
    all_at(CARD_INVALID_GPT_SIGNATURE, CARD_PLACE_FRONT, 0);
    memcpy(img, before, LEN);
    img[LEN - BLOCK + 91] ^= 1;
    all_at(CARD_INVALID_CRC32_CHECKSUM, CARD_PLACE_BACK, 0);
    memcpy(img, before, LEN);
    img[(BLOCKS - 33) * BLOCK + 4 * 128 + 127] ^= 1;
    all_at(CARD_PARTS_CRC, CARD_PLACE_BACK, 0);
    SAME(gpt_write_backup(img, LEN, back, BLOCK).number, 0);
    all_at(CARD_DISAGREE, CARD_PLACE_SLOT, 5);
    img[(BLOCKS - 33) * BLOCK + 127 * 128] ^= 1;
    SAME(gpt_write_backup(img, LEN, back, BLOCK).number, 0);
    all_at(CARD_DISAGREE, CARD_PLACE_SLOT, 5);
    back.disk_guid.time_low ^= 1;
    SAME(gpt_write_backup(img, LEN, back, BLOCK).number, 0);
    all_at(CARD_DISAGREE, CARD_PLACE_DISK_GUID, 0);
    memcpy(img, before, LEN);
    front.last_usable -= 1;
    SAME(gpt_write_primary(img, LEN, front, BLOCK).number, 0);
    all_at(CARD_WRONG_LAYOUT, CARD_PLACE_FRONT, 0);
    memcpy(img, before, LEN);
    gpt_partition outside = some(33, 33);
    store_both(outside, 8);
    all_at(CARD_WRONG_LAYOUT, CARD_PLACE_FRONT, 0);
    memcpy(img, before, LEN);
    AT(card_put(img, LEN, BLOCK, 0, outside), CARD_PLACE_NONE, 0);
    AT(card_lay(img, LEN, 1, disk), CARD_PLACE_NONE, 0);
    KEPT();
}

static void counts(void) {
    card_count n = card_count_used(img, LEN, BLOCK);
    SAME(n.number, 0);
    SAME(n.count, 2);
    n = card_count_used(img, 1000, BLOCK);
    SAME(n.number, CARD_TO_SMALL_FOR_BACKUP);
    SAME(n.count, 0);
    SAME(card_next_used(img, LEN, BLOCK, 0).slot, 7);
    SAME(card_next_used(img, LEN, BLOCK, 7).slot, 128);
    SAME(card_next_used(img, LEN, BLOCK, 128).slot, 0);
    SAME(card_next_used(img, 1000, BLOCK, 0).number, CARD_TO_SMALL_FOR_BACKUP);
}

static void reads(void) {
    gpt_partition p = some(35, 36), q = some(34, 34);
    card_slot_read r = card_read_slot(img, LEN, BLOCK, 7);
    SAME(r.number, 0);
    SAME(r.present, 1);
    RECORD(r.partition, p);
    r = card_read_slot(img, LEN, BLOCK, 8);
    SAME(r.number, 0);
    SAME(r.present, 0);
    RECORD(r.partition, no_record);
    r = card_read_slot(img, LEN, BLOCK, 0);
    SAME(r.number, CARD_BAD_SLOT);
    SAME(r.present, 0);
    RECORD(r.partition, no_record);

    card_used_read u = card_nth_used(img, LEN, BLOCK, 1);
    SAME(u.number, 0);
    SAME(u.found, 1);
    SAME(u.slot, 128);
    RECORD(u.partition, q);
    u = card_nth_used(img, LEN, BLOCK, 2);
    SAME(u.number, 0);
    SAME(u.found, 0);
    SAME(u.slot, 0);
    RECORD(u.partition, no_record);
    SAME(card_nth_used(img, 1000, BLOCK, 0).number, CARD_TO_SMALL_FOR_BACKUP);
}

static void lists(void) {
    gpt_partition p = some(35, 36), q = some(34, 34);
    card_row rows[3], old[3];
    memset(rows, 0x5A, sizeof rows);
    memcpy(old, rows, sizeof rows);
    card_count n = card_list(img, LEN, BLOCK, (uint8_t *)rows, 271);
    SAME(n.number, CARD_NO_ROOM);
    SAME(n.count, 0);
    BYTES(rows, old, sizeof rows);
    n = card_list(img, LEN, 1, (uint8_t *)rows, sizeof rows);
    SAME(n.number, CARD_BAD_BLOCK_SIZE);
    BYTES(rows, old, sizeof rows);
    n = card_list(img, LEN, BLOCK, (uint8_t *)rows, 272);
    SAME(n.number, 0);
    SAME(n.count, 2);
    SAME(rows[0].slot, 7);
    STANDS(&rows[0].entry, p);
    SAME(rows[1].slot, 128);
    STANDS(&rows[1].entry, q);
    BYTES(&rows[2], &old[2], sizeof rows[2]);
}

/* Slots 7 (blocks 35 and 36) and 128 (block 34) leave no block free; without slot 128 there is one run, of one block. */
static void free_ground(void) {
    uint64_t starts[2] = {1, 2}, lengths[2] = {4, 5};
    memcpy(before, img, LEN);
    card_count n = card_free_runs(img, LEN, BLOCK, starts, 0, lengths, 0);
    SAME(n.number, 0);
    SAME(n.count, 0);
    SAME(card_clear(img, LEN, BLOCK, 128).number, 0);
    n = card_free_runs(img, LEN, BLOCK, starts, 0, lengths, 2);
    SAME(n.number, CARD_NO_ROOM);
    SAME(n.count, 0);
    AT(n, CARD_PLACE_NONE, 0);
    SAME(card_free_runs(img, LEN, BLOCK, starts, 2, lengths, 0).number, CARD_NO_ROOM);
    SAME(card_free_runs(img, LEN, 1, starts, 2, lengths, 2).number, CARD_BAD_BLOCK_SIZE);
    SAME(starts[0], 1);
    SAME(lengths[0], 4);
    n = card_free_runs(img, LEN, BLOCK, starts, 1, lengths, 2);
    SAME(n.number, 0);
    SAME(n.count, 1);
    SAME(starts[0], 34);
    SAME(lengths[0], 1);
    SAME(starts[1], 2);
    SAME(lengths[1], 5);
    SAME(card_put(img, LEN, BLOCK, 128, some(34, 34)).number, 0);
    KEPT();
}

/* The map of slots 7 and 128, carried through a clear and a put of slot 128, and through refused ones. */
static void maps(void) {
    const card_slot_map both = {64, (uint64_t)1 << 63}, all = {UINT64_MAX, UINT64_MAX};
    memcpy(before, img, LEN);
    card_map_made made = card_map_make(img, LEN, BLOCK);
    SAME(made.number, 0);
    BYTES(&made.map, &both, sizeof both);
    made = card_map_make(img, 1000, BLOCK);
    SAME(made.number, CARD_TO_SMALL_FOR_BACKUP);
    ZEROS(&made.map, sizeof made.map);
    SAME(card_map_used(both), 2);
    SAME(card_map_lowest_free(both).slot, 1);
    SAME(card_map_lowest_free((card_slot_map){UINT64_MAX, 1}).slot, 66);
    SAME(card_map_lowest_free((card_slot_map){UINT64_MAX, UINT64_MAX >> 1}).slot, 128);
    SAME(card_map_lowest_free(all).number, CARD_TABLE_FULL);
    SAME(card_map_lowest_free(all).slot, 0);
    SAME(card_map_used(all), 128);
    card_carried c = card_map_put(img, LEN, BLOCK, 2, some(34, 35), both);
    SAME(c.answer.number, CARD_OVERLAP);
    SAME(c.answer.slot, 7);
    BYTES(&c.map, &both, sizeof both);
    c = card_map_clear(img, LEN, BLOCK, 0, both);
    SAME(c.answer.number, CARD_BAD_SLOT);
    BYTES(&c.map, &both, sizeof both);
    KEPT();
    c = card_map_clear(img, LEN, BLOCK, 128, both);
    SAME(c.answer.number, 0);
    SAME(c.map.low, 64);
    SAME(c.map.high, 0);
    c = card_map_put(img, LEN, BLOCK, 128, some(34, 34), c.map);
    SAME(c.answer.number, 0);
    SAME(c.answer.slot, 0);
    BYTES(&c.map, &both, sizeof both);
    KEPT();
}

/* A label is refused by a number, and comes back zero. */
#define NO_LABEL(x, n) do { card_label_read l_ = (x); SAME(l_.number, n); ZEROS(&l_.label, sizeof l_.label); } while (0)
/* So is a set, with the slot of the list that it names. */
#define NO_SET(x, n, s) do { card_judged j_ = (x); SAME(j_.number, n); SAME(j_.slot, s); SAME(j_.year | j_.month | j_.day | j_.style, 0); AT(j_, 0, 0); } while (0)

/* Labels in slots 7 (block 35 on) and 128 (block 34), and the sets that they make. */
static void labels(void) {
    const card_label summer = {0xE7E6, 12, 31, 0xD7D6, 0xC7C6}, first = {0, 1, 1, 0, 0};
    const uint8_t stands[13] = {'F', 'B', 'M', 1, 0, 0xE6, 0xE7, 12, 31, 0xD6, 0xD7, 0xC6, 0xC7};
    uint8_t *at = img + 35 * BLOCK;
    memcpy(before, img, LEN);
    NO_LABEL(card_read_label(img, LEN, 1024, 7), CARD_BAD_BLOCK_SIZE);
    NO_LABEL(card_read_label(img, 1000, BLOCK, 7), CARD_TO_SMALL_FOR_BACKUP);
    NO_LABEL(card_read_label(img, LEN, BLOCK, 129), CARD_BAD_SLOT);
    NO_LABEL(card_read_label(img, LEN, BLOCK, 1), CARD_EMPTY_SLOT);
    NO_LABEL(card_read_label(img, LEN, BLOCK, 7), CARD_BAD_MARK);
    SAME(card_write_label(img, LEN, BLOCK, 0, first).number, CARD_BAD_SLOT);
    SAME(card_write_label(img, LEN, BLOCK, 1, first).number, CARD_EMPTY_SLOT);
    SAME(card_write_label(img, LEN, BLOCK, 1, (card_label){0, 0, 1, 0, 0}).number, CARD_EMPTY_SLOT);
    for (int k = 0; k < 4; k++) {
        const uint8_t months[] = {0, 13, 1, 1}, days[] = {1, 1, 0, 32};
        SAME(card_write_label(img, LEN, BLOCK, 7, (card_label){2026, months[k], days[k], 1, 1}).number, CARD_BAD_DATE);
    }
    KEPT();
    SAME(card_write_label(img, LEN, BLOCK, 7, summer).number, 0);
    BYTES(at, stands, 13);
    memcpy(at, before + 35 * BLOCK, 13);
    KEPT();
    memcpy(at, stands, 13);
    card_label_read read = card_read_label(img, LEN, BLOCK, 7);
    SAME(read.number, 0);
    SAME(read.label.year, summer.year);
    SAME(read.label.month, summer.month);
    SAME(read.label.day, summer.day);
    SAME(read.label.style, summer.style);
    SAME(read.label.sheet, summer.sheet);
    at[2] ^= 1;
    NO_LABEL(card_read_label(img, LEN, BLOCK, 7), CARD_BAD_MARK);
    at[2] ^= 1, at[4] = 1;
    NO_LABEL(card_read_label(img, LEN, BLOCK, 7), CARD_UNKNOWN_VERSION);
    at[4] = 0, at[8] = 0;
    NO_LABEL(card_read_label(img, LEN, BLOCK, 7), CARD_BAD_DATE);
    at[8] = 31;
    SAME(card_write_label(img, LEN, BLOCK, 128, (card_label){summer.year, summer.month, summer.day, summer.style, 1}).number, 0);
}

/* The sets of the two labels, and of what is not one. Slots 7 and 128 have one date; the image is given back as it was before the labels. */
static void sets(void) {
    const uint32_t both[] = {128, 7, 128}, none[] = {7, 0, 1}, empty[] = {128, 1, 0};
    card_judged j = card_judge(img, LEN, BLOCK, both, 3);
    SAME(j.number, 0);
    SAME(j.slot, 0);
    SAME(j.year, 0xE7E6);
    SAME(j.month, 12);
    SAME(j.day, 31);
    SAME(j.style, 0xD7D6);
    AT(j, 0, 0);
    SAME(card_judge(img, LEN, BLOCK, both + 1, 1).day, 31);
    NO_SET(card_judge(img, LEN, 513, both, 0), CARD_BAD_BLOCK_SIZE, 0);
    NO_SET(card_judge(img, 0, BLOCK, both, 0), CARD_EMPTY_LIST, 0);
    NO_SET(card_judge(img, 0, BLOCK, both, 1), CARD_TO_SMALL_FOR_BACKUP, 0);
    NO_SET(card_judge(img, LEN, BLOCK, none, 3), CARD_BAD_SLOT, 0);
    NO_SET(card_judge(img, LEN, BLOCK, (const uint32_t[]){UINT32_MAX}, 1), CARD_BAD_SLOT, UINT32_MAX);
    NO_SET(card_judge(img, LEN, BLOCK, empty, 3), CARD_EMPTY_SLOT, 1);
    img[34 * BLOCK + 9] ^= 1;
    NO_SET(card_judge(img, LEN, BLOCK, both, 3), CARD_TWO_DATES, 7);
    NO_SET(card_judge(img, LEN, BLOCK, both + 1, 2), CARD_TWO_DATES, 128);
    img[34 * BLOCK + 9] ^= 1, img[34 * BLOCK + 8] = 30;
    NO_SET(card_judge(img, LEN, BLOCK, both + 1, 2), CARD_TWO_DATES, 128);
    img[34 * BLOCK + 7] = 13;
    NO_SET(card_judge(img, LEN, BLOCK, both + 1, 2), CARD_BAD_DATE, 128);
    img[34 * BLOCK + 3] = 2;
    NO_SET(card_judge(img, LEN, BLOCK, both + 1, 2), CARD_UNKNOWN_VERSION, 128);
    img[34 * BLOCK] = 0;
    NO_SET(card_judge(img, LEN, BLOCK, both + 1, 2), CARD_BAD_MARK, 128);
    NO_SET(card_judge(img, LEN, BLOCK, both, 3), CARD_BAD_MARK, 128);
    memcpy(img, before, LEN);
}

/* The reader of an image that has slots 7 and 128 in the table that it takes. */
static void reads_both(bool back) {
    gpt_partition p = some(35, 36), q = some(34, 34);
    card_row rows[3];
    card_copy c = card_reader_copy(img, LEN, BLOCK);
    SAME(c.number, 0);
    SAME(c.back, back);
    SAME(card_reader_count(img, LEN, BLOCK).number, 0);
    SAME(card_reader_count(img, LEN, BLOCK).count, 2);
    SAME(card_reader_next(img, LEN, BLOCK, 0).slot, 7);
    SAME(card_reader_next(img, LEN, BLOCK, 7).slot, 128);
    SAME(card_reader_next(img, LEN, BLOCK, 128).slot, 0);
    gpt_slot_read r = card_reader_slot(img, LEN, BLOCK, 7);
    SAME(r.number, 0);
    SAME(r.present, 1);
    RECORD(r.partition, p);
    r = card_reader_slot(img, LEN, BLOCK, 8);
    SAME(r.number, 0);
    SAME(r.present, 0);
    RECORD(r.partition, no_record);
    memset(rows, 0x77, sizeof rows);
    gpt_count n = card_reader_list(img, LEN, BLOCK, (uint8_t *)rows, sizeof rows);
    SAME(n.number, 0);
    SAME(n.count, 2);
    SAME(rows[0].slot, 7);
    STANDS(&rows[0].entry, p);
    SAME(rows[1].slot, 128);
    STANDS(&rows[1].entry, q);
    SAME(rows[2].slot, 0x7777777777777777);
    KEPT();
}

/* Every call of the reader is refused by one number, and the rest of each answer is zero. */
static void unread(size_t len, uint64_t b, uint32_t number) {
    uint8_t rows[272];
    card_copy c = card_reader_copy(img, len, b);
    SAME(c.number, number);
    SAME(c.back, 0);
    gpt_count n = card_reader_count(img, len, b);
    SAME(n.number, number);
    SAME(n.count, 0);
    gpt_next next = card_reader_next(img, len, b, 0);
    SAME(next.number, number);
    SAME(next.slot, 0);
    gpt_slot_read r = card_reader_slot(img, len, b, 129);
    SAME(r.number, number);
    SAME(r.present, 0);
    RECORD(r.partition, no_record);
    memset(rows, 0x77, sizeof rows);
    n = card_reader_list(img, len, b, rows, sizeof rows);
    SAME(n.number, number);
    SAME(n.count, 0);
    SAME(le(rows, 8), 0x7777777777777777);
    KEPT();
}

/* The reader on a whole card, on one whose front table is broken, on one whose tables both are, and on images that are no card. */
static void readers(void) {
    uint8_t rows[271];
    memcpy(before, img, LEN);
    reads_both(false);
    SAME(card_reader_slot(img, LEN, BLOCK, 129).number, CARD_BAD_SLOT);
    SAME(card_reader_slot(img, LEN, BLOCK, 0).present, 0);
    SAME(card_reader_list(img, LEN, BLOCK, rows, sizeof rows).number, CARD_NO_ROOM);
    SAME(card_reader_list(img, LEN, BLOCK, rows, sizeof rows).count, 0);
    unread(LEN, 1024, CARD_BAD_BLOCK_SIZE);
    unread(1000, BLOCK, CARD_TO_SMALL_FOR_BACKUP);
    unread(67 * BLOCK, BLOCK, CARD_BACKUP_LBA_TO_EARLY);
    before[BLOCK] = img[BLOCK] ^= 1;
    reads_both(true);
    before[LEN - BLOCK] = img[LEN - BLOCK] ^= 1;
    unread(LEN, BLOCK, CARD_NO_GOOD_COPY);
    img[BLOCK] ^= 1;
    img[LEN - BLOCK] ^= 1;
}

/* A state between the stages of an update, field by field: its struct has bytes that hold nothing. */
static void update_at(int line, card_update u, uint32_t next, uint32_t slot, gpt_partition p, uint32_t parts) {
    same_at(line, "next", u.next, next);
    same_at(line, "slot", u.slot, slot);
    same_at(line, "b", u.b, BLOCK);
    same_at(line, "len", u.len, LEN);
    stands_at(line, "entry", u.entry, p);
    bytes_at(line, "guid", &u.guid, &disk, sizeof disk);
    same_at(line, "parts", u.parts, parts);
}

/* A stage that was refused, with the slot that it names: everything else is zero, and the image is as it was. */
static void no_stage_at(int line, card_update_step s, uint32_t number, uint32_t slot) {
    same_at(line, "number", s.number, number);
    same_at(line, "slot", s.slot, slot);
    same_at(line, "place and differs", s.place | s.differs, 0);
    same_at(line, "state", s.state.next | s.state.slot | s.state.b | s.state.len | s.state.parts, 0);
    zeros_at(line, "entry", s.state.entry, 128);
    zeros_at(line, "guid", &s.state.guid, 16);
    bytes_at(line, "img", img, before, LEN);
}
#define NO_STAGE(step, number, slot) no_stage_at(__LINE__, step, number, slot)

/* The four stages of an update of slot 128, from its first answer to the image that the plain call leaves: each changes its block alone, and the reader shows
   the old table up to stage two and the new one from stage three on. */
static void four_stages(int line, card_update_step s, const uint8_t *after, gpt_partition p) {
    static const uint32_t blocks[] = {68, 69, 33, 1};
    static uint8_t old[LEN];
    const uint32_t parts = (uint32_t)le(after + BLOCK + 88, 4);
    memcpy(old, before, LEN);
    for (uint32_t stage = 1; stage <= 4; stage++) {
        const uint8_t *shown = (stage < 3 ? old : after) + 2 * BLOCK;
        const uint32_t place = blocks[stage - 1] * BLOCK;
        if (stage > 1) s = card_next_stage(img, LEN, BLOCK, stage, s.state);
        same_at(line, "number", s.number, 0);
        same_at(line, "slot, place and differs", s.slot | s.place | s.differs, 0);
        update_at(line, s.state, stage + 1, 128, p, parts);
        memcpy(before + place, after + place, BLOCK);
        bytes_at(line, "img", img, before, LEN);
        gpt_slot_read r = card_reader_slot(img, LEN, BLOCK, 128);
        record_at(line, "partition", r.partition, gpt_entry_from_bytes(shown + 127 * 128, 128).partition);
    }
    bytes_at(line, "img", img, after, LEN);
    NO_STAGE(card_next_stage(img, LEN, BLOCK, 5, s.state), CARD_WRONG_STAGE, 0);
}

/* Slot 128 put anew and cleared by stages, and put back. */
static void stages(void) {
    static uint8_t after[LEN], whole[LEN];
    gpt_partition q = some(34, 34);
    q.name[0] = 0x51;
    memcpy(before, img, LEN);
    memcpy(whole, img, LEN);
    memcpy(after, img, LEN);
    SAME(card_put(after, LEN, BLOCK, 128, q).number, 0);
    four_stages(__LINE__, card_start_put(img, LEN, BLOCK, 128, q), after, q);
    SAME(card_clear(after, LEN, BLOCK, 128).number, 0);
    four_stages(__LINE__, card_start_clear(img, LEN, BLOCK, 128), after, no_record);
    SAME(card_put(img, LEN, BLOCK, 128, some(34, 34)).number, 0);
    BYTES(img, whole, LEN);
}

/* Stages that are refused: the first by put's and clear's own numbers, the later ones by 1 and 26. */
static void no_stages(void) {
    gpt_partition twin = some(34, 34);
    twin.part_guid = some(35, 36).part_guid;
    memcpy(before, img, LEN);
    NO_STAGE(card_start_put(img, LEN, 1024, 128, twin), CARD_BAD_BLOCK_SIZE, 0);
    NO_STAGE(card_start_put(img, LEN, BLOCK, 129, twin), CARD_BAD_SLOT, 0);
    NO_STAGE(card_start_put(img, LEN, BLOCK, 2, some(34, 35)), CARD_OVERLAP, 7);
    NO_STAGE(card_start_put(img, LEN, BLOCK, 128, twin), CARD_TWIN_GUID, 7);
    NO_STAGE(card_start_clear(img, 67 * BLOCK, BLOCK, 128), CARD_BACKUP_LBA_TO_EARLY, 0);
    NO_STAGE(card_start_clear(img, LEN, BLOCK, 0), CARD_BAD_SLOT, 0);
    const card_update good = {.next = 3, .slot = 128, .b = BLOCK, .len = LEN, .guid = disk}, none = {0};
    card_update u = good;
    NO_STAGE(card_next_stage(img, LEN, 1024, 3, good), CARD_BAD_BLOCK_SIZE, 0);
    NO_STAGE(card_next_stage(img, LEN, BLOCK, 2, good), CARD_WRONG_STAGE, 0);
    NO_STAGE(card_next_stage(img, LEN, 4096, 3, good), CARD_WRONG_STAGE, 0);
    NO_STAGE(card_next_stage(img, LEN - 1, BLOCK, 3, good), CARD_WRONG_STAGE, 0);
    u.slot = 129;
    NO_STAGE(card_next_stage(img, LEN, BLOCK, 3, u), CARD_WRONG_STAGE, 0);
    u = good;
    u.b = 4096;
    NO_STAGE(card_next_stage(img, LEN, 4096, 3, u), CARD_WRONG_STAGE, 0);
    u = good;
    u.len = 67 * BLOCK;
    NO_STAGE(card_next_stage(img, 67 * BLOCK, BLOCK, 3, u), CARD_WRONG_STAGE, 0);
    u = good;
    u.next = 1;
    NO_STAGE(card_next_stage(img, LEN, BLOCK, 1, u), CARD_WRONG_STAGE, 0);
    NO_STAGE(card_next_stage(img, LEN, BLOCK, 0, none), CARD_WRONG_STAGE, 0);
}

/* A stage of a repair that was refused: everything but the number is zero, and the image is as it was. */
static void no_repair_at(int line, card_repair_step s, uint32_t number) {
    same_at(line, "number", s.number, number);
    same_at(line, "slot, place and differs", s.slot | s.place | s.differs, 0);
    same_at(line, "state", s.state.next | s.state.back | s.state.b | s.state.len | s.state.parts, 0);
    zeros_at(line, "guid", &s.state.guid, 16);
    bytes_at(line, "img", img, before, LEN);
}
#define NO_REPAIR(step, number) no_repair_at(__LINE__, step, number)

/* A repair by its 34 stages, of a card whose table on a side has a header and an array that are no table's. The reader shows the same at each. */
static void repaired(int line, const uint8_t *whole, bool back) {
    const uint32_t header = (back ? 1 : BLOCKS - 1) * BLOCK, array = (back ? 2 : BLOCKS - 33) * BLOCK;
    const card_repair want = {.back = back, .b = BLOCK, .len = LEN, .guid = disk, .parts = (uint32_t)le(whole + BLOCK + 88, 4)};
    memset(img + header, 0xA5, BLOCK);
    memset(img + array, 0xA5, 16384);
    memcpy(before, img, LEN);
    memset(before + header, 0, BLOCK);
    card_repair_step s = card_start_repair(img, LEN, BLOCK);
    for (uint32_t stage = 1; stage <= 34; stage++) {
        const uint32_t place = stage == 34 ? header : array + (stage - 2) * BLOCK;
        if (stage > 1) s = card_next_repair(img, LEN, BLOCK, stage, s.state);
        if (stage > 1) memcpy(before + place, whole + place, BLOCK);
        same_at(line, "number", s.number, 0);
        same_at(line, "slot, place and differs", s.slot | s.place | s.differs, 0);
        same_at(line, "next", s.state.next, stage + 1);
        same_at(line, "back", s.state.back, want.back);
        same_at(line, "b", s.state.b, want.b);
        same_at(line, "len", s.state.len, want.len);
        bytes_at(line, "guid", &s.state.guid, &want.guid, sizeof disk);
        same_at(line, "parts", s.state.parts, want.parts);
        bytes_at(line, "img", img, before, LEN);
        same_at(line, "count", card_reader_count(img, LEN, BLOCK).count, 2);
    }
    bytes_at(line, "img", img, whole, LEN);
    NO_REPAIR(card_next_repair(img, LEN, BLOCK, 35, s.state), CARD_WRONG_STAGE);
}

/* A broken back table, a broken front one, and repairs that are refused. */
static void repairs(void) {
    static uint8_t whole[LEN];
    card_repair good = {.next = 2, .b = BLOCK, .len = LEN, .guid = disk}, none = {0};
    memcpy(whole, img, LEN);
    repaired(__LINE__, whole, false);
    repaired(__LINE__, whole, true);
    NO_REPAIR(card_start_repair(img, LEN, 1024), CARD_BAD_BLOCK_SIZE);
    NO_REPAIR(card_start_repair(img, 1000, BLOCK), CARD_TO_SMALL_FOR_BACKUP);
    NO_REPAIR(card_start_repair(img, 67 * BLOCK, BLOCK), CARD_BACKUP_LBA_TO_EARLY);
    NO_REPAIR(card_next_repair(img, LEN, 1024, 2, good), CARD_BAD_BLOCK_SIZE);
    NO_REPAIR(card_next_repair(img, LEN, BLOCK, 3, good), CARD_WRONG_STAGE);
    NO_REPAIR(card_next_repair(img, LEN, 4096, 2, good), CARD_WRONG_STAGE);
    NO_REPAIR(card_next_repair(img, LEN - 1, BLOCK, 2, good), CARD_WRONG_STAGE);
    NO_REPAIR(card_next_repair(img, LEN, BLOCK, 0, none), CARD_WRONG_STAGE);
    good.next = 1;
    NO_REPAIR(card_next_repair(img, LEN, BLOCK, 1, good), CARD_WRONG_STAGE);
    good.next = 2;
    good.len = 67 * BLOCK;
    NO_REPAIR(card_next_repair(img, 67 * BLOCK, BLOCK, 2, good), CARD_WRONG_STAGE);
    memset(img + BLOCK, 0, BLOCK);
    memset(img + LEN - BLOCK, 0, BLOCK);
    memcpy(before, img, LEN);
    NO_REPAIR(card_start_repair(img, LEN, BLOCK), CARD_NO_GOOD_COPY);
    memcpy(img, whole, LEN);
}

/* Where the bytes of slot 7 stand, whose blocks are 35 and 36, and of slots that have none. */
static void payload_places(void) {
    card_spot at = card_payload_place(img, LEN, BLOCK, 7, 1020, 4);
    SAME(at.number, 0);
    SAME(at.at, 35 * BLOCK + 1020);
    AT(at, CARD_PLACE_NONE, 0);
    SAME(card_payload_place(img, LEN, BLOCK, 7, 0, 1024).at, 35 * BLOCK);
    SAME(card_payload_place(img, LEN, BLOCK, 7, 1024, 0).at, 37 * BLOCK);
    at = card_payload_place(img, LEN, BLOCK, 7, 1021, 4);
    SAME(at.number, CARD_PAST_PARTITION);
    SAME(at.at, 0);
    AT(at, CARD_PLACE_NONE, 0);
    SAME(card_payload_place(img, LEN, BLOCK, 7, 1025, 0).number, CARD_PAST_PARTITION);
    SAME(card_payload_place(img, LEN, BLOCK, 7, SIZE_MAX, 2).number, CARD_PAST_PARTITION);
    SAME(card_payload_place(img, LEN, BLOCK, 7, 2, SIZE_MAX).number, CARD_PAST_PARTITION);
    SAME(card_payload_place(img, LEN, BLOCK, 1, 0, 0).number, CARD_EMPTY_SLOT);
    SAME(card_payload_place(img, LEN, BLOCK, 129, 0, 0).number, CARD_BAD_SLOT);
    SAME(card_payload_place(img, LEN, 1024, 129, 0, 0).number, CARD_BAD_BLOCK_SIZE);
    SAME(card_payload_place(img, 1000, BLOCK, 7, 0, 0).number, CARD_TO_SMALL_FOR_BACKUP);
    SAME(card_payload_place(img, 67 * BLOCK, BLOCK, 7, 0, 0).number, CARD_BACKUP_LBA_TO_EARLY);
    KEPT();
}

/* The bytes that were written are read again, "fire" at the end of slot 7; a refused read leaves what was lent. */
static void payload_reads(void) {
    uint8_t out[8];
    memset(out, 0x77, sizeof out);
    card_stored s = card_read_payload(img, LEN, BLOCK, 7, 1021, out, 4);
    SAME(s.number, CARD_PAST_PARTITION);
    SAME(s.bytes, 0);
    SAME(card_read_payload(img, LEN, BLOCK, 7, SIZE_MAX, out, 4).number, CARD_PAST_PARTITION);
    SAME(card_read_payload(img, LEN, BLOCK, 1, 0, out, 0).number, CARD_EMPTY_SLOT);
    SAME(card_read_payload(img, LEN, BLOCK, 0, 0, out, 4).number, CARD_BAD_SLOT);
    SAME(card_read_payload(img, LEN, 1, 7, 0, out, 4).number, CARD_BAD_BLOCK_SIZE);
    SAME(card_read_payload(img, 1000, BLOCK, 7, 0, out, 4).number, CARD_TO_SMALL_FOR_BACKUP);
    SAME(card_read_payload(img, 67 * BLOCK, BLOCK, 7, 0, out, 4).number, CARD_BACKUP_LBA_TO_EARLY);
    SAME(le(out, 8), 0x7777777777777777);
    s = card_read_payload(img, LEN, BLOCK, 7, 1018, out, 6);
    SAME(s.number, 0);
    SAME(s.bytes, 6);
    AT(s, CARD_PLACE_NONE, 0);
    BYTES(out, img + 35 * BLOCK + 1018, 6);
    BYTES(out + 2, "fire\x77\x77", 6);
    s = card_read_payload(img, LEN, BLOCK, 7, 1024, out, 0);
    SAME(s.number, 0);
    SAME(s.bytes, 0);
    KEPT();
}

static void payloads(void) {
    memcpy(before, img, LEN);
    card_stored s = card_write_payload(img, LEN, BLOCK, 7, 1021, (const uint8_t *)"fire", 4);
    SAME(s.number, CARD_PAST_PARTITION);
    SAME(s.bytes, 0);
    SAME(card_write_payload(img, LEN, BLOCK, 7, SIZE_MAX, (const uint8_t *)"fire", 4).number, CARD_PAST_PARTITION);
    SAME(card_write_payload(img, LEN, BLOCK, 1, 0, (const uint8_t *)"fire", 4).number, CARD_EMPTY_SLOT);
    KEPT();
    payload_places();
    s = card_write_payload(img, LEN, BLOCK, 7, 1020, (const uint8_t *)"fire", 4);
    SAME(s.number, 0);
    SAME(s.bytes, 4);
    memcpy(before + 35 * BLOCK + 1020, "fire", 4);
    KEPT();
    payload_reads();
    SAME(card_clear(img, LEN, BLOCK, 129).number, CARD_BAD_SLOT);
    SAME(card_clear(img, LEN, BLOCK, 128).number, 0);
    ZEROS(img + 2 * BLOCK + 127 * 128, 128);
    SAME(card_count_used(img, LEN, BLOCK).count, 1);
}

/* The sum of bytes in pieces of so many bytes, the last as long as is left. */
static uint32_t in_pieces(const uint8_t *bytes, size_t len, size_t piece) {
    uint32_t running = 0;
    size_t at = 0;
    for (; len - at > piece; at += piece) running = gpt_crc32_next(running, bytes + at, piece);
    return gpt_crc32_next(running, bytes + at, len - at);
}

static void going_on(void) {
    const uint8_t *text = (const uint8_t *)"123456789";
    for (size_t cut = 0; cut <= 9; cut++) SAME(gpt_crc32_next(gpt_crc32_next(0, text, cut), text + cut, 9 - cut), 0xCBF43926);
    SAME(gpt_crc32_next(0xFFFFFFFF, text, 0), 0xFFFFFFFF);
    SAME(gpt_crc32_next(0x89ABCDEF, text, 0), 0x89ABCDEF);
    SAME(gpt_crc32_next(1, text, 9), 0xDC8F2D65); /* zlib's, as the next */
    SAME(gpt_crc32_next(0xFFFFFFFF, text, 9), 0xD202D277);
    const uint32_t whole = gpt_crc32(img + 2 * BLOCK, 16384);
    for (size_t piece = 1; piece <= 4096; piece *= 2) SAME(in_pieces(img + 2 * BLOCK, 16384, piece), whole);
    SAME(in_pieces(img + 2 * BLOCK, 16384, 127), whole);
    SAME(in_pieces(img + 2 * BLOCK, 16384, 4097), whole);
}

static void headers(void) {
    SAME(gpt_crc32((const uint8_t *)"123456789", 9), 0xCBF43926);
    SAME(gpt_crc32((const uint8_t *)"", 0), 0);
    going_on();
    gpt_header_read h = gpt_read_primary_header(img, LEN, BLOCK);
    SAME(h.number, 0);
    SAME(h.header.revision.major, 1);
    SAME(h.header.revision.minor, 0);
    SAME(h.header.header_size_le, 92);
    SAME(h.header.crc32, le(img + BLOCK + 16, 4));
    SAME(h.header.reserved, 0);
    SAME(h.header.current_lba, 1);
    SAME(h.header.backup_lba, BLOCKS - 1);
    SAME(h.header.first_usable, 34);
    SAME(h.header.last_usable, BLOCKS - 34);
    BYTES(&h.header.disk_guid, &disk, 16);
    SAME(h.header.part_start, 2);
    SAME(h.header.num_parts, 128);
    SAME(h.header.part_size, 128);
    SAME(h.header.crc32_parts, gpt_crc32(img + 2 * BLOCK, 16384));
    gpt_header_read k = gpt_read_backup_header(img, LEN, BLOCK);
    SAME(k.number, 0);
    SAME(k.header.current_lba, BLOCKS - 1);
    SAME(k.header.part_start, BLOCKS - 33);
    k = gpt_read_primary_header(img, BLOCK + 91, BLOCK);
    SAME(k.number, CARD_SHORT);
    SAME(k.header.backup_lba, 0);
    SAME(k.header.crc32_parts, 0);
    ZEROS(&k.header.disk_guid, 16);
}

static void sums(void) {
    gpt_header_read h = gpt_read_primary_header(img, LEN, BLOCK);
    gpt_block f = gpt_find_backup_lba(1600, BLOCK);
    SAME(f.number, 0);
    SAME(f.lba, 2);
    f = gpt_find_backup_lba(1535, BLOCK);
    SAME(f.number, CARD_TO_SMALL_FOR_BACKUP);
    SAME(f.lba, 0);
    gpt_sum s = gpt_partentry_checksum(img, LEN, h.header, BLOCK);
    SAME(s.number, 0);
    SAME(s.sum, h.header.crc32_parts);
    s = gpt_partentry_checksum(img, 1000, h.header, BLOCK);
    SAME(s.number, CARD_SHORT);
    SAME(s.sum, 0);

    memcpy(before, img, LEN);
    SAME(gpt_entry_to_bytes(before + 4 * BLOCK, 128, some(40, 41)), 0);
    s = gpt_slot_sum(h.header.crc32_parts, img + 4 * BLOCK, 128, before + 4 * BLOCK, 128, 16384 - 2 * BLOCK - 128);
    SAME(s.number, 0);
    SAME(s.sum, gpt_crc32(before + 2 * BLOCK, 16384));
    s = gpt_slot_sum(1, img, 128, img, 127, 0);
    SAME(s.number, CARD_SHORT);
    SAME(s.sum, 0);
    SAME(gpt_slot_sum(1, img, 128, img, 128, 1048449).number, CARD_OVERFLOW);
}

static void writes(void) {
    gpt_header h = gpt_read_primary_header(img, LEN, BLOCK).header;
    memcpy(before, img, LEN);
    SAME(gpt_write_backup(img, LEN, h, BLOCK).number, CARD_WRITING_TO_WRONG_LBA);
    KEPT();
    gpt_header t = h;
    t.disk_guid.time_mid = 0x1234;
    t.reserved = 9;
    gpt_header_written w = gpt_write_primary(img, LEN, t, BLOCK);
    SAME(w.number, 0);
    SAME(w.bytes, BLOCK);
    SAME(w.header.disk_guid.time_mid, 0x1234);
    SAME(w.header.reserved, 9);
    SAME(w.header.crc32, le(img + BLOCK + 16, 4));
    SAME(w.header.crc32_parts, h.crc32_parts);
    SAME(le(img + BLOCK + 60, 2), 0x1234);
    SAME(le(img + BLOCK + 20, 4), 0);
    w = gpt_write_primary(img, 1000, t, BLOCK);
    SAME(w.number, CARD_SHORT);
    SAME(w.bytes, 0);
    SAME(w.header.current_lba, 0);
    w = gpt_write_backup(img, LEN, gpt_read_backup_header(img, LEN, BLOCK).header, BLOCK);
    SAME(w.number, 0);
    SAME(w.header.current_lba, BLOCKS - 1);
    SAME(gpt_write_primary(img, LEN, h, BLOCK).number, 0);
    KEPT();
}

static void builds(void) {
    gpt_settings s = gpt_settings_new(disk);
    BYTES(&s.disk_guid, &disk, 16);
    SAME(s.backup_lba, 0);
    SAME(s.first_usable, 0);
    SAME(s.last_usable, 0);
    SAME(s.num_parts, 128);
    SAME(s.part_size, 128);
    SAME(s.primary, 1);
    gpt_header_read h = gpt_build(s, BLOCK);
    SAME(h.number, CARD_MISSING_BACKUP_LBA);
    SAME(h.header.header_size_le, 0);
    s.backup_lba = 67;
    h = gpt_build(s, BLOCK);
    SAME(h.number, 0);
    SAME(h.header.current_lba, 1);
    SAME(h.header.backup_lba, 67);
    SAME(h.header.first_usable, 34);
    SAME(h.header.last_usable, 34);
    SAME(h.header.part_start, 2);
    SAME(h.header.crc32, 0);
    BYTES(&h.header.disk_guid, &disk, 16);
}

static void builds_set(void) {
    gpt_settings s = gpt_settings_new(disk);
    s.backup_lba = 67;
    s.last_usable = 100;
    s.first_usable = 50;
    s.num_parts = 4;
    s.part_size = 100;
    s.primary = false;
    gpt_header_read h = gpt_build(s, BLOCK);
    SAME(h.number, 0);
    SAME(h.header.current_lba, 67);
    SAME(h.header.backup_lba, 1);
    SAME(h.header.first_usable, 50);
    SAME(h.header.last_usable, 100);
    SAME(h.header.part_start, 101);
    SAME(h.header.num_parts, 128);
    SAME(h.header.part_size, 100);
    h.header.num_parts = 4;
    gpt_header_read k = gpt_build_from_header(h.header, BLOCK);
    SAME(k.number, 0);
    SAME(k.header.current_lba, 67);
    SAME(k.header.num_parts, 4);
    SAME(gpt_build_from_header(h.header, 0).number, CARD_BAD_BLOCK_SIZE);
}

static void entries(void) {
    gpt_partition p = some(5, 9);
    uint8_t bytes[200];
    memset(bytes, 0x77, sizeof bytes);
    SAME(gpt_entry_to_bytes(bytes, 150, p), 0);
    STANDS(bytes, p);
    ZEROS(bytes + 128, 22);
    SAME(bytes[150], 0x77);
    memset(bytes, 0x77, sizeof bytes);
    SAME(gpt_entry_to_bytes(bytes, 3, p), 0);
    BYTES(bytes, &p, 3);
    SAME(bytes[3], 0x77);
    SAME(gpt_entry_to_bytes(bytes, 128, p), 0);
    gpt_entry_read e = gpt_entry_from_bytes(bytes, 128);
    SAME(e.number, 0);
    RECORD(e.partition, p);
    e = gpt_entry_from_bytes(bytes, 127);
    SAME(e.number, CARD_SHORT);
    RECORD(e.partition, no_record);
    SAME(gpt_is_used(p), 1);
    gpt_partition nil = p;
    memset(&nil.part_type_guid, 0, 16);
    SAME(gpt_is_used(nil), 0);

    SAME(gpt_sectors_len(p).length, 5);
    SAME(gpt_sectors_len(some(5, 4)).number, CARD_BAD_RANGE);
    gpt_length l = gpt_sectors_len(some(0, MOST));
    SAME(l.number, CARD_OVERFLOW);
    SAME(l.length, 0);
    SAME(gpt_bytes_len(p, 4096).length, 5 * 4096);
    SAME(gpt_bytes_len(p, 1).number, CARD_BAD_BLOCK_SIZE);
    gpt_place at = gpt_bytes_start(p, BLOCK);
    SAME(at.number, 0);
    SAME(at.place, 5 * BLOCK);
    at = gpt_bytes_start(some(MOST, MOST), BLOCK);
    SAME(at.number, CARD_OVERFLOW);
    SAME(at.place, 0);
}

/* The present entries of an array at once: q in slot 4 and p in slot 12. */
static void array_rows(const uint8_t *room, size_t len, gpt_header h, gpt_partition p, gpt_partition q) {
    card_row rows[3], old[3];
    memset(rows, 0x5A, sizeof rows);
    memcpy(old, rows, sizeof rows);
    gpt_count n = gpt_file_read_partitions(room, len, h, BLOCK, (uint8_t *)rows, 271);
    SAME(n.number, CARD_NO_ROOM);
    SAME(n.count, 0);
    BYTES(rows, old, sizeof rows);
    gpt_header other = h;
    other.crc32_parts++;
    n = gpt_file_read_partitions(room, len, other, BLOCK, (uint8_t *)rows, sizeof rows);
    SAME(n.number, CARD_PARTS_CRC);
    SAME(n.count, 0);
    SAME(gpt_file_read_partitions(room, len, h, 1, (uint8_t *)rows, sizeof rows).number, CARD_BAD_BLOCK_SIZE);
    SAME(gpt_file_read_partitions(room, 2559, h, BLOCK, (uint8_t *)rows, sizeof rows).number, CARD_SHORT);
    BYTES(rows, old, sizeof rows);
    n = gpt_file_read_partitions(room, len, h, BLOCK, (uint8_t *)rows, sizeof rows);
    SAME(n.number, 0);
    SAME(n.count, 2);
    SAME(rows[0].slot, 4);
    STANDS(&rows[0].entry, q);
    SAME(rows[1].slot, 12);
    STANDS(&rows[1].entry, p);
    BYTES(&rows[2], &old[2], sizeof rows[2]);
    memset(rows, 0x5A, sizeof rows);
    SAME(gpt_file_read_partitions(room, len, h, BLOCK, (uint8_t *)rows, 272).count, 2);
    BYTES(&rows[2], &old[2], sizeof rows[2]);
}

static void arrays(void) {
    static uint8_t room[8 * BLOCK];
    gpt_partition p = some(5, 9), q = some(3, 4);
    gpt_header h = {.part_start = 2, .num_parts = 12, .part_size = 128};
    gpt_stored s = gpt_write_entry(room, sizeof room, p, 11, 2, BLOCK, 128);
    SAME(s.number, 0);
    SAME(s.bytes, 128);
    STANDS(room + 2 * BLOCK + 11 * 128, p);
    SAME(gpt_write_entry(room, sizeof room, q, 3, 2, BLOCK, 128).number, 0);
    SAME(gpt_write_entry(room, sizeof room, p, 3, 2, BLOCK, 4097).number, CARD_BAD_ENTRY_SIZE);
    SAME(gpt_write_entry(room, sizeof room, p, MOST, 2, BLOCK, 128).number, CARD_OVERFLOW);
    h.crc32_parts = gpt_crc32(room + 2 * BLOCK, 12 * 128);
    SAME(gpt_count_partitions(room, sizeof room, h, BLOCK).count, 2);
    SAME(gpt_next_partition(room, sizeof room, h, BLOCK, 4).slot, 12);
    SAME(gpt_next_partition(room, sizeof room, h, BLOCK, 12).slot, 0);
    gpt_slot_read r = gpt_read_partition(room, sizeof room, h, BLOCK, 4);
    SAME(r.number, 0);
    SAME(r.present, 1);
    RECORD(r.partition, q);
    SAME(gpt_read_partition(room, sizeof room, h, BLOCK, 13).number, CARD_BAD_SLOT);
    array_rows(room, sizeof room, h, p, q);
    SAME(gpt_write_zero_entries(room, sizeof room, 3, 2, 2, BLOCK, 128).bytes, 256);
    ZEROS(room + 2 * BLOCK + 3 * 128, 256);
    SAME(gpt_read_partition(room, sizeof room, h, BLOCK, 4).number, CARD_PARTS_CRC);
    SAME(gpt_count_partitions(room, sizeof room, h, BLOCK).number, CARD_PARTS_CRC);
    SAME(gpt_next_partition(room, sizeof room, h, BLOCK, 0).number, CARD_PARTS_CRC);
    s = gpt_write_zero_entries(room, sizeof room, 0, 1, 8, BLOCK, 1);
    SAME(s.number, CARD_SHORT);
    SAME(s.bytes, 0);
}

static void records(void) {
    static const uint8_t made[16] = {0, 0, 2, 0, 0xEE, 0xFF, 0xFF, 0xFF, 1, 0, 0, 0, 0xFF, 0xFF, 0xFF, 0xFF};
    gpt_part_record p = gpt_mbr_protective_record(0xFFFFFFFF);
    gpt_record_bytes b = gpt_mbr_record_to_bytes(p);
    BYTES(b.bytes, made, 16);
    gpt_part_record mine = {1, 2, 3, 4, 5, 6, 7, 8, 0x11223344, 0x55667788};
    b = gpt_mbr_record_to_bytes(mine);
    gpt_record_read r = gpt_mbr_record_from_bytes(b.bytes, 16);
    SAME(r.number, 0);
    BYTES(&r.part_record, &mine, 16);
    r = gpt_mbr_record_from_bytes(b.bytes, 15);
    SAME(r.number, CARD_INVALID_PARTITION_LENGTH);
    ZEROS(&r.part_record, 16);
    gpt_mbr m = gpt_mbr_new(69);
    ZEROS(m.bootcode, 440);
    SAME(m.partitions[0].os_type, 0xEE);
    SAME(m.partitions[0].lb_size, 69);
    m.unknown = 0x1234;
    gpt_record_set t = gpt_mbr_set_record(m, 3, mine);
    SAME(t.number, 0);
    ZEROS(&t.old, 16);
    BYTES(&t.mbr.partitions[3], &mine, 16);
    BYTES(t.mbr.bootcode, m.bootcode, 440);
    BYTES(t.mbr.disk_signature, m.disk_signature, 4);
    SAME(t.mbr.unknown, 0x1234);
    BYTES(t.mbr.partitions, m.partitions, 48);
    r = gpt_mbr_record(t.mbr, 3);
    SAME(r.number, 0);
    BYTES(&r.part_record, &mine, 16);
    SAME(gpt_mbr_record(m, 4).number, CARD_BAD_SLOT);
    t = gpt_mbr_set_record(m, 4, mine);
    SAME(t.number, CARD_BAD_SLOT);
    ZEROS(&t.mbr.partitions, 64);
    SAME(t.mbr.unknown, 0);
}

/* The boot code and the disk signature alone, in an MBR with the signature "card". */
static void mbr_parts(uint8_t *room, size_t len) {
    gpt_bootcode code;
    memset(code.bytes, 3, sizeof code.bytes);
    code.bytes[439] = 4;
    SAME(gpt_mbr_write_bootcode(room, len, code).bytes, 440);
    SAME(room[439], 4);
    BYTES(room + 440, "card", 4);
    gpt_bootcode_read c = gpt_mbr_read_bootcode(room, 440);
    SAME(c.number, 0);
    BYTES(c.bootcode, code.bytes, 440);
    c = gpt_mbr_read_bootcode(room, 439);
    SAME(c.number, CARD_SHORT);
    ZEROS(c.bootcode, 440);
    gpt_signature sign = {{1, 2, 3, 4}};
    SAME(gpt_mbr_write_disk_signature(room, len, sign).bytes, 4);
    BYTES(room + 440, sign.bytes, 4);
    gpt_signature_read g = gpt_mbr_read_disk_signature(room, len);
    SAME(g.number, 0);
    BYTES(g.disk_signature, sign.bytes, 4);
    g = gpt_mbr_read_disk_signature(room, 443);
    SAME(g.number, CARD_SHORT);
    ZEROS(g.disk_signature, 4);
}

static void mbrs(void) {
    uint8_t room[600];
    memset(room, 0x77, sizeof room);
    gpt_mbr m = gpt_mbr_new(69);
    for (int i = 0; i < 440; i++) m.bootcode[i] = (uint8_t)(i + 1);
    memcpy(m.disk_signature, "card", 4);
    m.unknown = 0x1234;
    SAME(gpt_mbr_overwrite(room, 511, m).number, CARD_SHORT);
    SAME(room[0], 0x77);
    gpt_stored s = gpt_mbr_overwrite(room, sizeof room, m);
    SAME(s.number, 0);
    SAME(s.bytes, 512);
    BYTES(room, m.bootcode, 440);
    BYTES(room + 440, "card\x34\x12", 6);
    SAME(le(room + 446 + 12, 4), 69);
    BYTES(room + 510, "\x55\xAA\x77", 3);
    gpt_mbr_bytes stored = gpt_mbr_to_bytes(m);
    BYTES(stored.bytes, room, 512);
    gpt_mbr_read r = gpt_mbr_from_bytes(room, 512, BLOCK);
    SAME(r.number, 0);
    BYTES(r.mbr.bootcode, m.bootcode, 440);
    BYTES(r.mbr.disk_signature, "card", 4);
    SAME(r.mbr.unknown, 0x1234);
    BYTES(r.mbr.partitions, m.partitions, 64);
    SAME(gpt_mbr_from_bytes(room, 511, BLOCK).number, CARD_INVALID_MBR_LENGTH);
    SAME(gpt_mbr_from_image(room, sizeof room, BLOCK).mbr.unknown, 0x1234);
    r = gpt_mbr_from_image(room, 511, BLOCK);
    SAME(r.number, CARD_SHORT);
    ZEROS(r.mbr.bootcode, 440);
    ZEROS(r.mbr.disk_signature, 4);
    SAME(r.mbr.unknown, 0);
    ZEROS(r.mbr.partitions, 64);
    m.partitions[2].lb_start = 0xABCDEF01;
    m.unknown = 0;
    SAME(gpt_mbr_update_conservative(room, sizeof room, m).bytes, 66);
    SAME(le(room + 446 + 32 + 8, 4), 0xABCDEF01);
    SAME(le(room + 444, 2), 0x1234);
    mbr_parts(room, sizeof room);
}

/* A number stored at a place, least byte first. */
static void store(uint8_t *at, int n, uint64_t x) {
    for (int i = 0; i < n; i++) at[i] = (uint8_t)(x >> 8 * i);
}

/* A header of 100 stated bytes in a block, for an array of four entries of 256 bytes in block 3; its fields have values of their own. */
static void other_header(uint8_t *card, uint64_t block, uint64_t other) {
    uint8_t *h = card + block * BLOCK;
    memset(h, 0, BLOCK);
    memcpy(h, "EFI PART", 8);
    store(h + 8, 4, 0x00020003);
    store(h + 12, 4, 100);
    store(h + 20, 4, 0xE3E2E1E0);
    store(h + 24, 8, block);
    store(h + 32, 8, other);
    store(h + 40, 8, 0xF1);
    store(h + 48, 8, 0xF2);
    memcpy(h + 56, &disk, 16);
    store(h + 72, 8, 3);
    store(h + 80, 4, 4);
    store(h + 84, 4, 256);
    store(h + 88, 4, gpt_crc32(card + 3 * BLOCK, 1024));
    memset(h + 92, 0xDD, 8);
    store(h + 16, 4, gpt_crc32(h, 100));
}

/* One table of such a card, whose slots 1 and 4 are used, and slot 3 has bytes of nil type. */
static void other_table(const uint8_t *card, size_t len, bool back) {
    gpt_header_read h = back ? gpt_uefi_read_backup_header(card, len, BLOCK) : gpt_uefi_read_primary_header(card, len, BLOCK);
    SAME(h.number, 0);
    SAME(h.header.revision.major, 2);
    SAME(h.header.revision.minor, 3);
    SAME(h.header.header_size_le, 100);
    SAME(h.header.crc32, le(card + (back ? len - BLOCK : BLOCK) + 16, 4));
    SAME(h.header.reserved, 0xE3E2E1E0);
    SAME(h.header.current_lba, back ? 7 : 1);
    SAME(h.header.backup_lba, back ? 1 : 7);
    SAME(h.header.first_usable, 0xF1);
    SAME(h.header.last_usable, 0xF2);
    BYTES(&h.header.disk_guid, &disk, 16);
    SAME(h.header.part_start, 3);
    SAME(h.header.num_parts, 4);
    SAME(h.header.part_size, 256);
    SAME(gpt_uefi_count_partitions(card, len, h.header, BLOCK).count, 2);
    SAME(gpt_uefi_next_partition(card, len, h.header, BLOCK, 0).slot, 1);
    SAME(gpt_uefi_next_partition(card, len, h.header, BLOCK, 1).slot, 4);
    SAME(gpt_uefi_next_partition(card, len, h.header, BLOCK, 4).slot, 0);
    gpt_slot_read r = gpt_uefi_read_partition(card, len, h.header, BLOCK, 4);
    SAME(r.number, 0);
    SAME(r.present, 1);
    RECORD(r.partition, some(50, 51));
    r = gpt_uefi_read_partition(card, len, h.header, BLOCK, 3);
    SAME(r.number, 0);
    SAME(r.present, 0);
    RECORD(r.partition, no_record);
    r = gpt_uefi_read_partition(card, len, h.header, BLOCK, 5);
    SAME(r.number, CARD_BAD_SLOT);
    RECORD(r.partition, no_record);
    for (int whole = 0; whole < 2; whole++) {
        card_row rows[3];
        memset(rows, 0x77, sizeof rows);
        uint8_t *out = (uint8_t *)rows;
        gpt_count n = !whole ? gpt_uefi_file_read_partitions(card, len, h.header, BLOCK, out, sizeof rows)
                      : back ? gpt_uefi_list_backup(card, len, BLOCK, out, sizeof rows)
                             : gpt_uefi_list_primary(card, len, BLOCK, out, sizeof rows);
        SAME(n.number, 0);
        SAME(n.count, 2);
        SAME(rows[0].slot, 1);
        STANDS(&rows[0].entry, some(40, 41));
        SAME(rows[1].slot, 4);
        STANDS(&rows[1].entry, some(50, 51));
        SAME(rows[2].slot, 0x7777777777777777);
    }
    gpt_count n = back ? gpt_uefi_count_backup(card, len, BLOCK) : gpt_uefi_count_primary(card, len, BLOCK);
    SAME(n.number, 0);
    SAME(n.count, 2);
}

/* Both tables' calls are refused by one number, the rest of each answer is zero, and no lent byte changes. */
static void other_refused(const uint8_t *card, size_t len, uint64_t b, uint32_t front, uint32_t back) {
    uint8_t rows[272];
    for (int i = 0; i < 2; i++) {
        uint32_t number = i ? back : front;
        gpt_header_read h = i ? gpt_uefi_read_backup_header(card, len, b) : gpt_uefi_read_primary_header(card, len, b);
        SAME(h.number, number);
        SAME(h.header.header_size_le, 0);
        SAME(h.header.num_parts, 0);
        gpt_count n = i ? gpt_uefi_count_backup(card, len, b) : gpt_uefi_count_primary(card, len, b);
        SAME(n.number, number);
        SAME(n.count, 0);
        memset(rows, 0x77, sizeof rows);
        n = i ? gpt_uefi_list_backup(card, len, b, rows, sizeof rows) : gpt_uefi_list_primary(card, len, b, rows, sizeof rows);
        SAME(n.number, number);
        SAME(n.count, 0);
        SAME(le(rows, 8), 0x7777777777777777);
    }
}

/* The second reading edition: on a card that the library laid, as the first reads it; on one of another maker; and each of its refusals. */
static void by_uefi(void) {
    static uint8_t card[8 * BLOCK];
    gpt_header_read h = gpt_read_primary_header(img, LEN, BLOCK), u = gpt_uefi_read_primary_header(img, LEN, BLOCK);
    SAME(u.number, 0);
    BYTES(&u.header, &h.header, 84);
    SAME(gpt_uefi_count_primary(img, LEN, BLOCK).count, gpt_count_partitions(img, LEN, h.header, BLOCK).count);
    SAME(gpt_uefi_count_backup(img, LEN, BLOCK).count, gpt_count_partitions(img, LEN, h.header, BLOCK).count);
    SAME(gpt_entry_to_bytes(card + 3 * BLOCK, 128, some(40, 41)), 0);
    SAME(gpt_entry_to_bytes(card + 3 * BLOCK + 768, 128, some(50, 51)), 0);
    memset(card + 3 * BLOCK + 128, 0xEE, 128);
    memset(card + 3 * BLOCK + 512 + 16, 0xEE, 240);
    other_header(card, 1, 7);
    other_header(card, 7, 1);
    other_table(card, sizeof card, false);
    other_table(card, sizeof card, true);
    SAME(gpt_read_primary_header(card, sizeof card, BLOCK).number, CARD_INVALID_CRC32_CHECKSUM);
    uint8_t rows[271];
    SAME(gpt_uefi_list_primary(card, sizeof card, BLOCK, rows, sizeof rows).number, CARD_NO_ROOM);
    SAME(gpt_uefi_list_backup(card, sizeof card, BLOCK, rows, sizeof rows).count, 0);
    u = gpt_uefi_read_primary_header(card, sizeof card, BLOCK);
    SAME(gpt_uefi_file_read_partitions(card, sizeof card, u.header, BLOCK, rows, sizeof rows).number, CARD_NO_ROOM);
    u.header.part_size = 384;
    SAME(gpt_uefi_count_partitions(card, sizeof card, u.header, BLOCK).number, CARD_BAD_ENTRY_SIZE);
    SAME(gpt_uefi_next_partition(card, sizeof card, u.header, BLOCK, 0).number, CARD_BAD_ENTRY_SIZE);
    SAME(gpt_uefi_read_partition(card, sizeof card, u.header, BLOCK, 1).number, CARD_BAD_ENTRY_SIZE);
    other_refused(card, sizeof card, 1024, CARD_BAD_BLOCK_SIZE, CARD_BAD_BLOCK_SIZE);
    other_refused(card, 2 * BLOCK - 1, BLOCK, CARD_SHORT, CARD_TO_SMALL_FOR_BACKUP);
    card[2 * BLOCK - 1] = card[8 * BLOCK - 1] = 1;
    other_refused(card, sizeof card, BLOCK, CARD_DIRTY_BLOCK, CARD_DIRTY_BLOCK);
    card[BLOCK + 99] ^= 1, card[7 * BLOCK + 99] ^= 1;
    other_refused(card, sizeof card, BLOCK, CARD_INVALID_CRC32_CHECKSUM, CARD_INVALID_CRC32_CHECKSUM);
    card[BLOCK + 12] = 91, card[7 * BLOCK + 13] = 3;
    other_refused(card, sizeof card, BLOCK, CARD_BAD_HEADER_SIZE, CARD_BAD_HEADER_SIZE);
    card[BLOCK] ^= 1, card[7 * BLOCK] ^= 1;
    other_refused(card, sizeof card, BLOCK, CARD_INVALID_GPT_SIGNATURE, CARD_INVALID_GPT_SIGNATURE);
    other_header(card, 2, 7);
    memcpy(card + BLOCK, card + 2 * BLOCK, BLOCK);
    memcpy(card + 7 * BLOCK, card + 2 * BLOCK, BLOCK);
    other_refused(card, sizeof card, BLOCK, CARD_WRONG_PLACE, CARD_WRONG_PLACE);
}

/* ---- a card by two windows. Beside them stands, where there is one, the whole card, to which the same is done by the calls on an image. */

#define WIDEST 4096
static uint64_t size, many;
static size_t head_len, tail_len;
static uint8_t head[2 * WIDEST + 16384], tail[WIDEST + 16384], old_head[sizeof head], old_tail[sizeof tail];
static uint8_t whole[30 * WIDEST], old_whole[sizeof whole];
#define WINDOWS head, head_len, tail, tail_len, many, size
#define WHOLE whole, many * size, size

/* Blocks of b bytes, and n of them. */
static void windows_of(uint64_t b, uint64_t n) {
    size = b;
    many = n;
    head_len = b + b + 16384;
    tail_len = b + 16384;
}

/* The windows as the whole card has them. */
static void cut_out(void) {
    memcpy(head, whole, head_len);
    memcpy(tail, whole + many * size - tail_len, tail_len);
}

static void keep_windows(void) {
    memcpy(old_head, head, sizeof head);
    memcpy(old_tail, tail, sizeof tail);
}
#define WINDOWS_KEPT(line) do { bytes_at(line, "head", head, old_head, sizeof head); bytes_at(line, "tail", tail, old_tail, sizeof tail); } while (0)
#define AS_WHOLE(line) do { bytes_at(line, "head", head, whole, head_len); bytes_at(line, "tail", tail, whole + many * size - tail_len, tail_len); } while (0)

/* Two answers have the same number and place, and the same in one more field. */
#define TOLD(line, x, y, field) do { \
    same_at(line, #x ".number", (x).number, (y).number); \
    same_at(line, #x ".place", (x).place, (y).place); \
    same_at(line, #x ".differs", (x).differs, (y).differs); \
    same_at(line, #x "." #field, (x).field, (y).field); \
} while (0)
#define PLAIN(line, x, y, field) do { \
    same_at(line, #x ".number", (x).number, (y).number); \
    same_at(line, #x "." #field, (x).field, (y).field); \
} while (0)

static void lists_alike(int line) {
    static const size_t lens[] = {0, 135, 136, 271, 272, 3 * 136};
    uint8_t rows[3 * 136], same[sizeof rows];
    for (size_t i = 0; i < sizeof lens / sizeof *lens; i++) {
        memset(rows, 0x5A, sizeof rows);
        memset(same, 0x5A, sizeof same);
        card_count n = card_window_list(WINDOWS, rows, lens[i]), m = card_list(WHOLE, same, lens[i]);
        TOLD(line, n, m, count);
        bytes_at(line, "rows", rows, same, sizeof rows);
        gpt_count r = card_window_reader_list(WINDOWS, rows, lens[i]), q = card_reader_list(WHOLE, same, lens[i]);
        PLAIN(line, r, q, count);
        bytes_at(line, "rows", rows, same, sizeof rows);
    }
}

static void runs_alike(int line) {
    for (size_t len = 0; len <= 3; len++) {
        uint64_t starts[3] = {1, 2, 3}, lengths[3] = {4, 5, 6}, s[3] = {1, 2, 3}, l[3] = {4, 5, 6};
        card_count n = card_window_free_runs(WINDOWS, starts, len, lengths, 3), m = card_free_runs(WHOLE, s, len, l, 3);
        TOLD(line, n, m, count);
        bytes_at(line, "starts", starts, s, sizeof s);
        bytes_at(line, "lengths", lengths, l, sizeof l);
        n = card_window_free_runs(WINDOWS, starts, 3, lengths, len), m = card_free_runs(WHOLE, s, 3, l, len);
        TOLD(line, n, m, count);
        bytes_at(line, "starts", starts, s, sizeof s);
        bytes_at(line, "lengths", lengths, l, sizeof l);
    }
}

static void slots_alike(int line, uint32_t slot) {
    card_next next = card_window_next_used(WINDOWS, slot), after = card_next_used(WHOLE, slot);
    TOLD(line, next, after, slot);
    card_slot_read r = card_window_read_slot(WINDOWS, slot), s = card_read_slot(WHOLE, slot);
    TOLD(line, r, s, present);
    record_at(line, "partition", r.partition, s.partition);
    gpt_next n = card_window_reader_next(WINDOWS, slot), m = card_reader_next(WHOLE, slot);
    PLAIN(line, n, m, slot);
    gpt_slot_read p = card_window_reader_slot(WINDOWS, slot), q = card_reader_slot(WHOLE, slot);
    PLAIN(line, p, q, present);
    record_at(line, "partition", p.partition, q.partition);
    for (uint64_t place = 0; place <= 2 * size + 1; place += size - 1) {
        card_spot at = card_window_payload_place(WINDOWS, slot, place, 3), to = card_payload_place(WHOLE, slot, place, 3);
        TOLD(line, at, to, at);
    }
}

/* The labels of a set by the windows, handed in as they stand in the whole card, and the judgement; bytes of slots that are refused are not looked at. */
static void sets_alike(int line, const uint32_t *slots, size_t n) {
    uint8_t labels[3 * 13];
    memset(labels, 0x5A, sizeof labels);
    for (size_t i = 0; i < n; i++) {
        card_spot at = card_payload_place(WHOLE, slots[i], 0, 13);
        if (at.number == 0) memcpy(labels + 13 * i, whole + at.at, 13);
        card_label_read l = card_window_read_label(WINDOWS, slots[i], labels + 13 * i, 13), m = card_read_label(WHOLE, slots[i]);
        TOLD(line, l, m, label.year);
        bytes_at(line, "label", &l.label, &m.label, sizeof l.label);
    }
    card_judged j = card_window_judge(WINDOWS, slots, n, labels, 13 * n), k = card_judge(WHOLE, slots, n);
    TOLD(line, j, k, slot);
    same_at(line, "year", j.year, k.year);
    same_at(line, "month", j.month, k.month);
    same_at(line, "day", j.day, k.day);
    same_at(line, "style", j.style, k.style);
}

/* Every call that reads, on the windows and on the whole card: the same answers and rows, and no byte of the windows changes. */
static void reads_alike(int line) {
    static const uint32_t slots[] = {0, 1, 6, 7, 8, 127, 128, 129, UINT32_MAX};
    AS_WHOLE(line);
    keep_windows();
    card_answer a = card_window_check(WINDOWS), c = card_check(WHOLE);
    TOLD(line, a, c, slot);
    card_count n = card_window_count_used(WINDOWS), m = card_count_used(WHOLE);
    TOLD(line, n, m, count);
    for (size_t i = 0; i < sizeof slots / sizeof *slots; i++) slots_alike(line, slots[i]);
    for (uint32_t k = 0; k <= 3; k++) {
        card_used_read u = card_window_nth_used(WINDOWS, k), v = card_nth_used(WHOLE, k);
        TOLD(line, u, v, found);
        same_at(line, "slot", u.slot, v.slot);
        record_at(line, "partition", u.partition, v.partition);
    }
    card_map_made made = card_window_map_make(WINDOWS), map = card_map_make(WHOLE);
    TOLD(line, made, map, map.low);
    same_at(line, "map.high", made.map.high, map.map.high);
    card_copy copy = card_window_reader_copy(WINDOWS), side = card_reader_copy(WHOLE);
    PLAIN(line, copy, side, back);
    gpt_count r = card_window_reader_count(WINDOWS), q = card_reader_count(WHOLE);
    PLAIN(line, r, q, count);
    lists_alike(line);
    runs_alike(line);
    for (size_t i = 0; i + 3 <= sizeof slots / sizeof *slots; i++)
        for (size_t k = 0; k <= 3; k++) sets_alike(line, slots + i, k);
    WINDOWS_KEPT(line);
}

static void update_alike(int line, card_update u, card_update v) {
    same_at(line, "next", u.next, v.next);
    same_at(line, "slot", u.slot, v.slot);
    same_at(line, "b", u.b, v.b);
    same_at(line, "len", u.len, v.len);
    same_at(line, "parts", u.parts, v.parts);
    bytes_at(line, "entry", u.entry, v.entry, 128);
    bytes_at(line, "guid", &u.guid, &v.guid, 16);
}

/* A put, and a clear where p is NULL: at once and in four stages. Refused or not, the windows end as the whole card does, after each stage. */
static void change_alike(int line, uint32_t slot, const gpt_partition *p) {
    memcpy(old_whole, whole, sizeof whole);
    card_answer a = p ? card_window_put(WINDOWS, slot, *p) : card_window_clear(WINDOWS, slot);
    card_answer c = p ? card_put(WHOLE, slot, *p) : card_clear(WHOLE, slot);
    TOLD(line, a, c, slot);
    AS_WHOLE(line);
    memcpy(whole, old_whole, sizeof whole);
    cut_out();
    card_update_step s = p ? card_window_start_put(WINDOWS, slot, *p) : card_window_start_clear(WINDOWS, slot);
    card_update_step t = p ? card_start_put(WHOLE, slot, *p) : card_start_clear(WHOLE, slot);
    for (uint32_t stage = 2; stage <= 6; stage++) {
        TOLD(line, s, t, slot);
        update_alike(line, s.state, t.state);
        AS_WHOLE(line);
        s = card_window_next_stage(WINDOWS, stage, s.state);
        t = card_next_stage(WHOLE, stage, t.state);
    }
    same_at(line, "number", s.number, CARD_WRONG_STAGE);
}

/* A repair by all its stages, and two more, which are refused. */
static void repair_alike(int line) {
    const uint32_t last = (uint32_t)(16384 / size) + 2;
    card_repair_step s = card_window_start_repair(WINDOWS), t = card_start_repair(WHOLE);
    for (uint32_t stage = 2; stage <= last + 2; stage++) {
        TOLD(line, s, t, slot);
        same_at(line, "next", s.state.next, t.state.next);
        same_at(line, "back", s.state.back, t.state.back);
        same_at(line, "b", s.state.b, t.state.b);
        same_at(line, "len", s.state.len, t.state.len);
        same_at(line, "parts", s.state.parts, t.state.parts);
        bytes_at(line, "guid", &s.state.guid, &t.state.guid, 16);
        AS_WHOLE(line);
        s = card_window_next_repair(WINDOWS, stage, s.state);
        t = card_next_repair(WHOLE, stage, t.state);
    }
    same_at(line, "number", s.number, CARD_WRONG_STAGE);
    AS_WHOLE(line);
}

/* A state that every later stage takes on these windows. */
static card_update some_update(void) {
    return (card_update){.next = 3, .slot = 128, .b = size, .len = many * size, .guid = disk};
}
static card_repair some_repair(void) {
    return (card_repair){.next = 2, .b = size, .len = many * size, .guid = disk};
}

#define THESE head, h, tail, t, n, b

/* A call that is refused, and so may be made again: the number, and zero beside it. */
#define SHUT(call, field) do { same_at(line, #call, (call).number, number); same_at(line, #call "." #field, (call).field, 0); } while (0)
#define SHUT_AT(call, field) do { SHUT(call, field); same_at(line, #call ".place", (call).place | (call).differs, 0); } while (0)

/* Every call but the later stages is refused by one number, the rest of each answer is zero, and no lent byte changes. */
static void closed_at(int line, size_t h, size_t t, uint64_t n, uint64_t b, uint32_t number) {
    uint8_t rows[136];
    uint64_t starts[1] = {1}, lengths[1] = {2};
    gpt_partition p = some(0, MOST);
    keep_windows();
    memset(rows, 0x77, sizeof rows);
    SHUT_AT(card_window_lay(THESE, disk), slot);
    SHUT_AT(card_window_check(THESE), slot);
    SHUT_AT(card_window_put(THESE, 0, p), slot);
    SHUT_AT(card_window_clear(THESE, 0), slot);
    SHUT_AT(card_window_count_used(THESE), count);
    SHUT_AT(card_window_next_used(THESE, 0), slot);
    SHUT_AT(card_window_read_slot(THESE, 0), present);
    SHUT_AT(card_window_nth_used(THESE, 0), found);
    SHUT_AT(card_window_list(THESE, rows, 0), count);
    SHUT_AT(card_window_list(THESE, rows, sizeof rows), count);
    SHUT_AT(card_window_free_runs(THESE, starts, 0, lengths, 0), count);
    SHUT_AT(card_window_free_runs(THESE, starts, 1, lengths, 1), count);
    SHUT_AT(card_window_map_make(THESE), map.low);
    SHUT_AT(card_window_payload_place(THESE, 0, SIZE_MAX, SIZE_MAX), at);
    SHUT_AT(card_window_read_label(THESE, 0, rows, 0), label.year);
    SHUT_AT(card_window_judge(THESE, (const uint32_t[]){0}, 1, rows, 0), slot);
    SHUT(card_window_reader_copy(THESE), back);
    SHUT(card_window_reader_count(THESE), count);
    SHUT(card_window_reader_next(THESE, 0), slot);
    SHUT(card_window_reader_slot(THESE, 0), present);
    SHUT(card_window_reader_list(THESE, rows, 0), count);
    SHUT(card_window_reader_list(THESE, rows, sizeof rows), count);
    SHUT_AT(card_window_start_put(THESE, 0, p), state.len);
    SHUT_AT(card_window_start_clear(THESE, 0), state.len);
    SHUT_AT(card_window_start_repair(THESE), state.len);
    for (size_t i = 0; i < sizeof rows; i++) same_at(line, "rows", rows[i], 0x77);
    same_at(line, "starts", starts[0], 1);
    same_at(line, "lengths", lengths[0], 2);
    WINDOWS_KEPT(line);
}
#define CLOSED(h, t, n, b, number) closed_at(__LINE__, h, t, n, b, number)

/* A later stage of both kinds is refused by one number. */
static void halted_at(int line, size_t h, size_t t, uint64_t n, uint64_t b, uint32_t number) {
    keep_windows();
    SHUT_AT(card_window_next_stage(THESE, 3, some_update()), state.len);
    SHUT_AT(card_window_next_repair(THESE, 2, some_repair()), state.len);
    WINDOWS_KEPT(line);
}
#define HALTED(h, t, n, b, number) halted_at(__LINE__, h, t, n, b, number)

/* The windows' own numbers, in their order: 1 before 3, 3 before 8 and 10, these before 32, and 32 before all that the windows hold. In a later stage 1, 26, 32. */
static void own_numbers(void) {
    const uint64_t over = (MOST / size) + 1, least = 2 * (16384 / size) + 4;
    CLOSED(0, 0, MOST, 1024, CARD_BAD_BLOCK_SIZE);
    CLOSED(head_len, tail_len, many, 0, CARD_BAD_BLOCK_SIZE);
    CLOSED(0, 0, MOST, size, CARD_OVERFLOW);
    CLOSED(head_len, tail_len, over, size, CARD_OVERFLOW);
    CLOSED(0, 0, 0, size, CARD_TO_SMALL_FOR_BACKUP);
    CLOSED(head_len, tail_len, 2, size, CARD_TO_SMALL_FOR_BACKUP);
    CLOSED(head_len, 0, 3, size, CARD_BACKUP_LBA_TO_EARLY);
    CLOSED(head_len, tail_len, least - 1, size, CARD_BACKUP_LBA_TO_EARLY);
    CLOSED(head_len - 1, tail_len, least, size, CARD_WINDOW_LENGTH);
    CLOSED(head_len, tail_len - 1, many, size, CARD_WINDOW_LENGTH);
    CLOSED(head_len, tail_len + 1, many, size, CARD_WINDOW_LENGTH);
    CLOSED(head_len - size, tail_len + size, many, size, CARD_WINDOW_LENGTH);
    CLOSED(0, 0, over - 1, size, CARD_WINDOW_LENGTH);
    HALTED(0, 0, over, 1024, CARD_BAD_BLOCK_SIZE);
    HALTED(0, 0, over, size, CARD_WRONG_STAGE);
    HALTED(head_len, tail_len, over + many, size, CARD_WRONG_STAGE);
    HALTED(head_len, 0, many + 1, size, CARD_WRONG_STAGE);
    HALTED(head_len, tail_len, many, 4608 - size, CARD_WRONG_STAGE);
    HALTED(head_len - 1, tail_len, many, size, CARD_WINDOW_LENGTH);
    HALTED(head_len, tail_len + 1, many, size, CARD_WINDOW_LENGTH);
    HALTED(0, 0, many, size, CARD_WINDOW_LENGTH);
}

/* The reader and the repair where neither table can be read: 27. The card check names the front table. */
static void none_good(void) {
    uint8_t rows[136];
    head[size] ^= 1;
    tail[tail_len - size] ^= 1;
    keep_windows();
    SAME(card_window_reader_copy(WINDOWS).number, CARD_NO_GOOD_COPY);
    SAME(card_window_reader_count(WINDOWS).number, CARD_NO_GOOD_COPY);
    SAME(card_window_reader_next(WINDOWS, 0).number, CARD_NO_GOOD_COPY);
    SAME(card_window_reader_slot(WINDOWS, 0).number, CARD_NO_GOOD_COPY);
    SAME(card_window_reader_list(WINDOWS, rows, sizeof rows).number, CARD_NO_GOOD_COPY);
    SAME(card_window_start_repair(WINDOWS).number, CARD_NO_GOOD_COPY);
    SAME(card_window_check(WINDOWS).number, CARD_INVALID_GPT_SIGNATURE);
    AT(card_window_check(WINDOWS), CARD_PLACE_FRONT, 0);
    WINDOWS_KEPT(__LINE__);
    head[size] ^= 1;
    tail[tail_len - size] ^= 1;
}

/* The whole card with a byte changed in block k, at byte i of it, and both headers summed again by the ported calls if that is asked for: what the check
   says of its windows, and every call on them as on the image. */
static void broken_alike(int line, uint64_t k, size_t i, bool summed, uint32_t number, uint32_t place, uint32_t differs) {
    static uint8_t sound[sizeof whole];
    const gpt_partition p = some(many / 2, many / 2);
    gpt_header front = gpt_read_primary_header(WHOLE).header, back = gpt_read_backup_header(WHOLE).header;
    memcpy(sound, whole, sizeof whole);
    whole[k * size + i] ^= 1;
    if (summed) {
        same_at(line, "number", gpt_write_primary(whole, many * size, front, size).number, 0);
        same_at(line, "number", gpt_write_backup(whole, many * size, back, size).number, 0);
    }
    cut_out();
    card_answer a = card_window_check(WINDOWS);
    same_at(line, "number", a.number, number);
    same_at(line, "place", a.place, place);
    same_at(line, "differs", a.differs, differs);
    reads_alike(line);
    change_alike(line, 9, &p);
    change_alike(line, 9, NULL);
    repair_alike(line);
    memcpy(whole, sound, sizeof whole);
    cut_out();
}
#define BROKEN(k, i, summed, number, place, differs) broken_alike(__LINE__, k, i, summed, number, place, differs)

/* The labels of slots 7 and 128 of a card by its windows, and sets of them, with the numbers of the bytes that are handed in. */
static void labels_by_windows(uint64_t b) {
    static const uint32_t slots[] = {7, 128, 7};
    const card_label summer = {2026, 7, 14, 3, 12}, sheet = {2026, 7, 14, 3, 13}, later = {2026, 7, 15, 3, 12};
    uint8_t labels[39] = {0};
    SAME(card_write_label(WHOLE, 7, summer).number, 0);
    SAME(card_write_label(WHOLE, 128, sheet).number, 0);
    reads_alike(__LINE__);
    sets_alike(__LINE__, slots, 3);
    for (size_t i = 0; i < 3; i++) memcpy(labels + 13 * i, whole + card_window_payload_place(WINDOWS, slots[i], 0, 13).at, 13);
    card_judged j = card_window_judge(WINDOWS, slots, 3, labels, 39);
    SAME(j.number, 0);
    SAME(j.day, 14);
    SAME(j.style, 3);
    SAME(card_window_read_label(WINDOWS, 128, labels + 13, 13).label.sheet, 13);
    SAME(card_window_read_label(WINDOWS, 128, labels + 13, 26).label.sheet, 13);
    NO_LABEL(card_window_read_label(WINDOWS, 128, labels + 13, 12), CARD_SHORT);
    NO_LABEL(card_window_read_label(WINDOWS, 127, labels, 0), CARD_EMPTY_SLOT);
    NO_LABEL(card_window_read_label(WINDOWS, 129, labels, 0), CARD_BAD_SLOT);
    NO_SET(card_window_judge(WINDOWS, slots, 3, labels, 38), CARD_SHORT, 0);
    NO_SET(card_window_judge(WINDOWS, slots, 2, labels, 39), CARD_SHORT, 0);
    NO_SET(card_window_judge(WINDOWS, slots, 0, labels, 39), CARD_EMPTY_LIST, 0);
    NO_SET(card_window_judge(head, 0, tail, 0, many, 513, slots, 0, labels, 0), CARD_BAD_BLOCK_SIZE, 0);
    NO_SET(card_window_judge(head, 0, tail, 0, many, b, slots, 0, labels, 0), CARD_EMPTY_LIST, 0);
    NO_SET(card_window_judge(head, 0, tail, 0, many, b, slots, 1, labels, 0), CARD_WINDOW_LENGTH, 0);
    /* Slot 7 is named twice: the label at its first place counts. */
    labels[26 + 8] = 15;
    j = card_window_judge(WINDOWS, slots, 3, labels, 39);
    SAME(j.number, 0);
    SAME(j.day, 14);
    SAME(j.style, 3);
    labels[13 + 8] = 15;
    NO_SET(card_window_judge(WINDOWS, slots, 3, labels, 39), CARD_TWO_DATES, 128);
    labels[13] = 'f';
    NO_SET(card_window_judge(WINDOWS, slots, 3, labels, 39), CARD_BAD_MARK, 128);
    SAME(card_write_label(WHOLE, 128, later).number, 0);
    sets_alike(__LINE__, slots, 3);
    memset(whole + card_window_payload_place(WINDOWS, 7, 0, 13).at, 0xC3, 13);
    memset(whole + card_window_payload_place(WINDOWS, 128, 0, 13).at, 0xC3, 13);
}

/* A small card of n blocks of b bytes, its middle full of other bytes: each call on its windows does what the call on the image does. */
static void windows_beside(uint64_t b, uint64_t n) {
    windows_of(b, n);
    const uint64_t a = 16384 / b;
    const gpt_partition p = some(a + 3, a + 3), q = some(n - a - 3, n - a - 3), over = some(a + 3, n), low = some(a + 1, a + 3), none = {0}, back = some(a + 4, a + 3);
    gpt_partition twin = some(a + 2, a + 2), flag = twin;
    twin.part_guid = p.part_guid;
    flag.flags.reserved = 1;
    memset(whole, 0xC3, sizeof whole);
    cut_out();
    reads_alike(__LINE__);
    SAME(card_window_check(WINDOWS).number, CARD_INVALID_GPT_SIGNATURE);
    SAME(card_window_lay(WINDOWS, disk).number, 0);
    SAME(card_lay(WHOLE, disk).number, 0);
    SAME(whole[(a + 2) * b], 0xC3);
    SAME(card_window_check(WINDOWS).number, 0);
    reads_alike(__LINE__);
    change_alike(__LINE__, 7, &p);
    change_alike(__LINE__, 128, &q);
    reads_alike(__LINE__);
    SAME(card_window_count_used(WINDOWS).count, 2);
    SAME(card_window_read_slot(WINDOWS, 129).number, CARD_BAD_SLOT);
    SAME(card_window_reader_slot(WINDOWS, 0).number, CARD_BAD_SLOT);
    SAME(card_window_payload_place(WINDOWS, 0, 0, 0).number, CARD_BAD_SLOT);
    SAME(card_window_payload_place(WINDOWS, 8, 0, 0).number, CARD_EMPTY_SLOT);
    SAME(card_window_payload_place(WINDOWS, 7, b - 2, 3).number, CARD_PAST_PARTITION);
    SAME(card_window_payload_place(WINDOWS, 7, b - 3, 3).at, (a + 3) * b + b - 3);
    labels_by_windows(b);
    const struct {
        const gpt_partition *record;
        uint32_t slot, number, names;
    } refused[] = {
        {&p, 129, CARD_BAD_SLOT, 0},        {&none, 1, CARD_NIL_TYPE, 0}, {&back, 1, CARD_BAD_RANGE, 0},    {&over, 1, CARD_OUTSIDE_USABLE, 0},
        {&low, 1, CARD_OUTSIDE_USABLE, 0},  {&p, 1, CARD_OVERLAP, 7},     {&q, 7, CARD_OVERLAP, 128},       {&twin, 1, CARD_TWIN_GUID, 7},
        {&flag, 1, CARD_RESERVED_FLAG, 0},
    };
    for (size_t i = 0; i < sizeof refused / sizeof *refused; i++) {
        card_answer r = card_window_put(WINDOWS, refused[i].slot, *refused[i].record);
        SAME(r.number, refused[i].number);
        SAME(r.slot, refused[i].names);
        change_alike(__LINE__, refused[i].slot, refused[i].record);
    }
    change_alike(__LINE__, 0, NULL);
    SAME(card_window_clear(WINDOWS, 129).number, CARD_BAD_SLOT);
    none_good();
    own_numbers();
    AS_WHOLE(__LINE__);
    BROKEN(0, 0, false, 0, CARD_PLACE_NONE, 0);
    BROKEN(1, 0, false, CARD_INVALID_GPT_SIGNATURE, CARD_PLACE_FRONT, 0);
    BROKEN(1, 91, false, CARD_INVALID_CRC32_CHECKSUM, CARD_PLACE_FRONT, 0);
    BROKEN(1, b - 1, false, 0, CARD_PLACE_NONE, 0);
    BROKEN(2, 3 * 128, false, CARD_PARTS_CRC, CARD_PLACE_FRONT, 0);
    BROKEN(n - 1 - a, 3 * 128, false, CARD_PARTS_CRC, CARD_PLACE_BACK, 0);
    BROKEN(n - 1, 56, false, CARD_INVALID_CRC32_CHECKSUM, CARD_PLACE_BACK, 0);
    BROKEN(n - 1, 3, false, CARD_INVALID_GPT_SIGNATURE, CARD_PLACE_BACK, 0);
    BROKEN(n - 1 - a, 3 * 128, true, CARD_DISAGREE, CARD_PLACE_SLOT, 4);
    BROKEN(2, 0, true, CARD_DISAGREE, CARD_PLACE_SLOT, 1);
    memset(tail, 0, tail_len);
    memset(whole + n * b - tail_len, 0, tail_len);
    repair_alike(__LINE__);
    SAME(card_window_check(WINDOWS).number, 0);
    change_alike(__LINE__, 128, NULL);
    change_alike(__LINE__, 7, NULL);
    reads_alike(__LINE__);
}

/* A card of n blocks, whose middle is nowhere: laid, changed by put and by stages, listed, read and repaired by its windows alone. */
static void windows_alone(uint64_t b, uint64_t n) {
    windows_of(b, n);
    const uint64_t a = 16384 / b, middle = n / 2, last = n - a - 2;
    const gpt_partition p = some(middle, middle + 1), q = some(a + 2, a + 2);
    uint64_t starts[3], lengths[3];
    card_row rows[2];
    memset(head, 0xC3, sizeof head);
    memset(tail, 0xC3, sizeof tail);
    SAME(card_window_lay(WINDOWS, disk).number, 0);
    SAME(le(head + 446 + 12, 4), n - 1 < 0xFFFFFFFF ? n - 1 : 0xFFFFFFFF);
    SAME(le(head + b + 24, 8), 1);
    SAME(le(head + b + 32, 8), n - 1);
    SAME(le(head + b + 40, 8), a + 2);
    SAME(le(head + b + 48, 8), last);
    SAME(le(tail + 16384 + 24, 8), n - 1);
    SAME(le(tail + 16384 + 32, 8), 1);
    SAME(le(tail + 16384 + 72, 8), n - 1 - a);
    SAME(card_window_put(WINDOWS, 3, some(last, last + 1)).number, CARD_OUTSIDE_USABLE);
    SAME(card_window_put(WINDOWS, 3, p).number, 0);
    STANDS(head + 2 * b + 2 * 128, p);
    STANDS(tail + 2 * 128, p);
    keep_windows();
    card_update_step s = card_window_start_put(WINDOWS, 1, q);
    for (uint32_t stage = 2; stage <= 4; stage++) {
        SAME(s.number, 0);
        SAME(s.state.len, n * b);
        SAME(card_window_reader_count(WINDOWS).count, stage == 4 ? 2 : 1);
        s = card_window_next_stage(WINDOWS, stage, s.state);
    }
    SAME(s.number, 0);
    SAME(card_window_next_stage(WINDOWS, 5, s.state).number, CARD_WRONG_STAGE);
    SAME(card_window_list(WINDOWS, (uint8_t *)rows, sizeof rows).count, 2);
    STANDS(&rows[0].entry, q);
    STANDS(&rows[1].entry, p);
    memset(rows, 0, sizeof rows);
    SAME(card_window_reader_list(WINDOWS, (uint8_t *)rows, sizeof rows).count, 2);
    SAME(rows[1].slot, 3);
    SAME(card_window_nth_used(WINDOWS, 1).slot, 3);
    RECORD(card_window_read_slot(WINDOWS, 3).partition, p);
    SAME(card_window_map_make(WINDOWS).map.low, 5);
    SAME(card_window_payload_place(WINDOWS, 3, 2 * b - 1, 1).at, (middle + 2) * b - 1);
    SAME(card_window_payload_place(WINDOWS, 3, 2 * b, 1).number, CARD_PAST_PARTITION);
    SAME(card_window_payload_place(WINDOWS, 3, SIZE_MAX, 1).number, CARD_PAST_PARTITION);
    SAME(card_window_free_runs(WINDOWS, starts, 1, lengths, 3).number, CARD_NO_ROOM);
    SAME(card_window_free_runs(WINDOWS, starts, 3, lengths, 3).count, 2);
    SAME(starts[0], a + 3);
    SAME(lengths[0], middle - a - 3);
    SAME(starts[1], middle + 2);
    SAME(lengths[1], last - middle - 1);
    memcpy(old_head, head, sizeof head);
    memset(head + b, 0, head_len - b);
    SAME(card_window_reader_copy(WINDOWS).back, 1);
    card_repair_step r = card_window_start_repair(WINDOWS);
    for (uint32_t stage = 2; r.number == 0 && stage <= a + 2; stage++) r = card_window_next_repair(WINDOWS, stage, r.state);
    SAME(r.number, 0);
    SAME(r.state.next, a + 3);
    BYTES(head, old_head, sizeof head);
    SAME(card_window_start_clear(WINDOWS, 3).state.len, n * b);
    SAME(card_window_check(WINDOWS).number, CARD_PARTS_CRC);
    AT(card_window_check(WINDOWS), CARD_PLACE_BACK, 0);
    SAME(card_window_lay(WINDOWS, disk).number, 0);
    SAME(card_window_clear(WINDOWS, 3).number, 0);
    SAME(card_window_lay(head, head_len, tail, tail_len, MOST / b + 1, b, disk).number, CARD_OVERFLOW);
    SAME(card_window_check(head, head_len, tail, tail_len, n - 1, b).number, CARD_WRONG_LAYOUT);
}

/* Both block sizes: small cards beside whole images; 8 TiB; and the most blocks whose bytes 64 bits count. */
static void by_windows(void) {
    windows_beside(512, 72);
    windows_beside(4096, 16);
    windows_alone(512, (uint64_t)1 << 34);
    windows_alone(4096, (uint64_t)1 << 31);
    windows_alone(512, MOST / 512);
    windows_alone(4096, MOST / 4096);
}

static const char guid_text[] = "03020100-0504-0706-0809-0a0b0c0d0e0f";

/* A text in lent bytes: exactly as many as it takes, one fewer, none, and more; what stands behind the zero stays. */
static void stored_text(const char *text, card_text (*call)(char *out, size_t out_len)) {
    size_t n = strlen(text);
    char out[256], kept[256];
    memset(kept, 0x5A, sizeof kept);
    for (size_t room = 0; room < sizeof out; room++) {
        memset(out, 0x5A, sizeof out);
        card_text t = call(out, room);
        SAME(t.number, room > n ? 0 : CARD_SHORT);
        SAME(t.length, room > n ? n : 0);
        if (room > n) BYTES(out, text, n + 1);
        BYTES(out + (room > n ? n + 1 : 0), kept, sizeof out - (room > n ? n + 1 : 0));
    }
}

static card_text guid_told(char *out, size_t out_len) { return gpt_guid_to_text(out, out_len, disk); }
static const uint16_t ridge[] = {0x41, 0xE9, 0x20AC, 0xD83D, 0xDD25, 0xDC00, 0x7A, 0, 0x7A};
static card_text name_told(char *out, size_t out_len) { return gpt_name_to_utf8(out, out_len, ridge, 9); }
static card_text overlap_told(char *out, size_t out_len) { return card_message(out, out_len, CARD_OVERLAP, 0, 4294967295u); }
static card_text differs_told(char *out, size_t out_len) {
    return card_answer_message(out, out_len, (card_answer){.number = CARD_DISAGREE, .slot = 0, .place = CARD_PLACE_SLOT, .differs = 128});
}
static card_text slot_told(char *out, size_t out_len) {
    return card_answer_message(out, out_len, (card_answer){.number = CARD_TWIN_GUID, .slot = 7, .place = 0, .differs = 0});
}
static card_text none_told(char *out, size_t out_len) { return gpt_name_to_utf8(out, out_len, ridge, 0); }

static void messages(void) {
    static const char *const said[] = {
        "refused 4, InvalidGptSignature: the back table's header does not begin with EFI PART", "refused 5, InvalidCRC32Checksum: the back table's header check sum does not match",
        "refused 6, PartsCrc: the back table's entry check sum does not match", "refused 16, WrongLayout: the back table is not laid out as a card's"};
    static const uint32_t numbers[] = {4, 5, 6, 16};
    char out[CARD_MESSAGE_SIZE];
    for (int i = 0; i < 4; i++) {
        SAME(card_message(out, sizeof out, numbers[i], CARD_PLACE_BACK, 0).number, 0);
        SAME(strcmp(out, said[i]), 0);
    }
    for (uint64_t number = 0; number <= 4294967295u; number += number < 60 ? 1 : 400000007) {
        for (uint32_t place = 0; place < 6; place++) SAME(card_message(out, sizeof out, (uint32_t)number, place, 4294967295u).number, 0);
        if (number > 40) SAME(strcmp(out, "the library has no such number"), 0);
    }
    card_message(out, sizeof out, CARD_DISAGREE, CARD_PLACE_DISK_GUID, 0);
    SAME(strcmp(out, "refused 17, Disagree: the two tables have different disk GUIDs"), 0);
    card_message(out, sizeof out, 0, 0, 3);
    SAME(strcmp(out, "accepted"), 0);
}

static void guid_texts(void) {
    char upper[] = "03020100-0504-0706-0809-0A0B0C0D0E0F";
    gpt_guid_of_text g = gpt_guid_from_text(upper, 36);
    SAME(g.number, 0);
    SAME(g.at, 0);
    BYTES(&g.guid, &disk, 16);
    for (size_t i = 0; i < 36; i++) {
        char was = upper[i];
        upper[i] = was == '-' ? '0' : 'g';
        g = gpt_guid_from_text(upper, 36);
        SAME(g.number, CARD_BAD_TEXT);
        SAME(g.at, i);
        ZEROS(&g.guid, 16);
        upper[i] = was;
        SAME(gpt_guid_from_text(upper, i).at, i);
    }
    SAME(gpt_guid_from_text(upper, 37).number, CARD_BAD_TEXT);
    SAME(gpt_guid_from_text(upper, 37).at, 36);
}

static void name_texts(void) {
    static const struct { const char *text; size_t n; uint32_t number; size_t at; } cases[] = {
        {"", 0, 0, 0}, {"a\xC0\x80", 3, 39, 1}, {"\xED\xA0\x80", 3, 39, 0}, {"\xF4\x90\x80\x80", 4, 39, 0}, {"ab\0", 3, 39, 2}, {"\xE2\x82", 2, 39, 0}, {"\x80", 1, 39, 0},
        {"0123456789012345678901234567890123456", 37, 40, 36}, {"01234567890123456789012345678901234\xF0\x9F\x94\xA5", 39, 40, 35}, {"0123456789012345678901234567890123456\xFF", 38, 40, 36}};
    for (size_t i = 0; i < sizeof cases / sizeof *cases; i++) {
        gpt_name_of_text t = gpt_name_from_utf8(cases[i].text, cases[i].n);
        SAME(t.number, cases[i].number);
        SAME(t.at, cases[i].at);
        ZEROS(t.name, 72);
    }
    gpt_name_of_text t = gpt_name_from_utf8("A\xC3\xA9\xE2\x82\xAC\xF0\x9F\x94\xA5z", 11);
    SAME(t.number, 0);
    BYTES(t.name, ridge, 10);
    SAME(t.name[5], 0x7A);
    ZEROS(t.name + 6, 60);
}

static void texts(void) {
    card_version_numbers v = card_version();
    char version[64];
    snprintf(version, sizeof version, "%u.%u.%u", v.major, v.minor, v.patch);
    SAME(strcmp(version, CARD_VERSION), 0);
    stored_text(guid_text, guid_told);
    stored_text("A\xC3\xA9\xE2\x82\xAC\xF0\x9F\x94\xA5\xEF\xBF\xBDz", name_told);
    stored_text("", none_told);
    stored_text("refused 22, Overlap: a block that another slot has (slot 4294967295)", overlap_told);
    stored_text("refused 17, Disagree: the two tables differ, first in slot 128", differs_told);
    stored_text("refused 25, TwinGuid: a partition GUID that another used slot has (slot 7)", slot_told);
    messages();
    guid_texts();
    name_texts();
}

int main(void) {
    texts();
    cards();
    puts_two();
    twins();
    flags();
    places();
    counts();
    reads();
    lists();
    free_ground();
    maps();
    labels();
    sets();
    readers();
    stages();
    no_stages();
    repairs();
    payloads();
    headers();
    sums();
    writes();
    builds();
    builds_set();
    entries();
    arrays();
    by_uefi();
    by_windows();
    records();
    mbrs();
    if (wrong != 0) {
        printf("boundary: %u of %u values differ\n", wrong, seen);
        return EXIT_FAILURE;
    }
    printf("boundary: %u values ok\n", seen);
    return EXIT_SUCCESS;
}
