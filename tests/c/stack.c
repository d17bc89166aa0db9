/* How much stack a call needs: each call runs on a thread whose stack was painted before, and what is overwritten afterwards is counted. No call
   may need more than the header's CARD_STACK, and each call must end on a thread of 24 KiB with a page below it that cannot be touched.
   It ends with "stack: ..", or with exit status 1 after a line for each call that needs more. With the argument "each" it prints what each
   call needs. Build: see tests/c/README.md. */
#define _GNU_SOURCE
#include "card.h"
#include <pthread.h>
#include <stdio.h>
#include <stdlib.h>
#include <string.h>
#include <sys/mman.h>

#define BLOCK 512
#define BLOCKS 200
#define LEN (BLOCKS * BLOCK)
#define ROOM 65536
#define THREAD 24576
#define PAGE 4096
#define PAINT 0xA5

#define HEAD (2 * BLOCK + 16384)
#define TAIL (BLOCK + 16384)

static uint8_t img[LEN], spare[LEN], was[128], is[128], head[HEAD], tail[TAIL];
static card_row rows[128];
static uint64_t starts[CARD_RUNS], lengths[CARD_RUNS];
static gpt_partition map = {.part_type_guid = {1, 2, 3, {4}}};
static gpt_header header, backup;
static card_update update;
static card_repair repair;
static volatile uint32_t number;

/* A record of one block, and with a GUID by it. */
static gpt_partition in_block(uint64_t block) {
    gpt_partition p = map;
    p.part_guid.time_low = (uint32_t)block;
    p.first_lba = p.last_lba = block;
    return p;
}

static void nothing(void) { number = 0; }
static void lay(void) { number = card_lay(img, LEN, BLOCK, (gpt_guid){5, 6, 7, {8}}).number; }
static void check(void) { number = card_check(img, LEN, BLOCK).number; }
static void put(void) { number = card_put(img, LEN, BLOCK, 64, in_block(162 - 64)).number; }
static void clear(void) { number = card_clear(img, LEN, BLOCK, 64).number; }
static void payload(void) { number = card_write_payload(img, LEN, BLOCK, 64, 100, was, 128).number; }
static void count_used(void) { number = card_count_used(img, LEN, BLOCK).number; }
static void next_used(void) { number = card_next_used(img, LEN, BLOCK, 64).number; }
static void read_slot(void) { number = card_read_slot(img, LEN, BLOCK, 64).number; }
static void nth_used(void) { number = card_nth_used(img, LEN, BLOCK, 100).number; }
static void list(void) { number = card_list(img, LEN, BLOCK, (uint8_t *)rows, sizeof rows).number; }
static void free_runs(void) { number = card_free_runs(img, LEN, BLOCK, starts, CARD_RUNS, lengths, CARD_RUNS).number; }
static void map_make(void) { number = card_map_make(img, LEN, BLOCK).number; }
static void map_put(void) { number = card_map_put(img, LEN, BLOCK, 64, in_block(162 - 64), (card_slot_map){0, 0}).answer.number; }
static void map_clear(void) { number = card_map_clear(img, LEN, BLOCK, 64, (card_slot_map){0, 0}).answer.number; }
static void map_lowest_free(void) { number = card_map_lowest_free((card_slot_map){1, 0}).number; }
static void map_used(void) { number = card_map_used((card_slot_map){0, 0}); }
static void read_label(void) { number = card_read_label(img, LEN, BLOCK, 64).number; }
static void write_label(void) { number = card_write_label(img, LEN, BLOCK, 64, (card_label){2026, 7, 14, 1, 1}).number; }
static void judge(void) { number = card_judge(img, LEN, BLOCK, (const uint32_t[]){64, 64}, 2).number; }
static void reader_copy(void) { number = card_reader_copy(img, LEN, BLOCK).number; }
static void reader_count(void) { number = card_reader_count(img, LEN, BLOCK).number; }
static void reader_next(void) { number = card_reader_next(img, LEN, BLOCK, 64).number; }
static void reader_slot(void) { number = card_reader_slot(img, LEN, BLOCK, 64).number; }
static void reader_list(void) { number = card_reader_list(img, LEN, BLOCK, (uint8_t *)rows, sizeof rows).number; }
static void start_put(void) { number = card_start_put(img, LEN, BLOCK, 64, in_block(162 - 64)).number; }
static void start_clear(void) { number = card_start_clear(img, LEN, BLOCK, 64).number; }
static void next_stage(void) { number = card_next_stage(img, LEN, BLOCK, 2, update).number; }
static void start_repair(void) { number = card_start_repair(img, LEN, BLOCK).number; }
static void next_repair(void) { number = card_next_repair(img, LEN, BLOCK, 2, repair).number; }
static void last_repair(void) {
    card_repair last = repair;
    last.next = 34;
    number = card_next_repair(img, LEN, BLOCK, 34, last).number;
}
#define WINDOWS head, HEAD, tail, TAIL, BLOCKS, BLOCK
static void payload_place(void) { number = card_payload_place(img, LEN, BLOCK, 64, 100, 128).number; }
static void read_payload(void) { number = card_read_payload(img, LEN, BLOCK, 64, 100, is, 128).number; }
static void window_lay(void) { number = card_window_lay(WINDOWS, (gpt_guid){5, 6, 7, {8}}).number; }
static void window_check(void) { number = card_window_check(WINDOWS).number; }
static void window_put(void) { number = card_window_put(WINDOWS, 64, in_block(162 - 64)).number; }
static void window_clear(void) { number = card_window_clear(WINDOWS, 64).number; }
static void window_count_used(void) { number = card_window_count_used(WINDOWS).number; }
static void window_next_used(void) { number = card_window_next_used(WINDOWS, 64).number; }
static void window_read_slot(void) { number = card_window_read_slot(WINDOWS, 64).number; }
static void window_nth_used(void) { number = card_window_nth_used(WINDOWS, 100).number; }
static void window_list(void) { number = card_window_list(WINDOWS, (uint8_t *)rows, sizeof rows).number; }
static void window_free_runs(void) { number = card_window_free_runs(WINDOWS, starts, CARD_RUNS, lengths, CARD_RUNS).number; }
static void window_map_make(void) { number = card_window_map_make(WINDOWS).number; }
static const uint8_t handed[26] = {'F', 'B', 'M', 1, 0, 234, 7, 7, 14, 1, 0, 1, 0, 'F', 'B', 'M', 1, 0, 234, 7, 7, 14, 1, 0, 1, 0};
static void window_read_label(void) { number = card_window_read_label(WINDOWS, 64, handed, 13).number; }
static void window_judge(void) { number = card_window_judge(WINDOWS, (const uint32_t[]){64, 64}, 2, handed, 26).number; }
static void window_payload_place(void) { number = card_window_payload_place(WINDOWS, 64, 100, 128).number; }
static void window_reader_copy(void) { number = card_window_reader_copy(WINDOWS).number; }
static void window_reader_count(void) { number = card_window_reader_count(WINDOWS).number; }
static void window_reader_next(void) { number = card_window_reader_next(WINDOWS, 64).number; }
static void window_reader_slot(void) { number = card_window_reader_slot(WINDOWS, 64).number; }
static void window_reader_list(void) { number = card_window_reader_list(WINDOWS, (uint8_t *)rows, sizeof rows).number; }
static void window_start_put(void) { number = card_window_start_put(WINDOWS, 64, in_block(162 - 64)).number; }
static void window_start_clear(void) { number = card_window_start_clear(WINDOWS, 64).number; }
static void window_next_stage(void) { number = card_window_next_stage(WINDOWS, 2, update).number; }
static void window_start_repair(void) { number = card_window_start_repair(WINDOWS).number; }
static void window_next_repair(void) { number = card_window_next_repair(WINDOWS, 2, repair).number; }
static void window_last_repair(void) {
    card_repair last = repair;
    last.next = 34;
    number = card_window_next_repair(WINDOWS, 34, last).number;
}
static void crc32(void) { number = gpt_crc32(img, LEN) == 0; }
static void crc32_next(void) { number = gpt_crc32_next(1, img, LEN) == 0; }
static void read_primary(void) { number = gpt_read_primary_header(img, LEN, BLOCK).number; }
static void read_backup(void) { number = gpt_read_backup_header(img, LEN, BLOCK).number; }
static void find_backup(void) { number = gpt_find_backup_lba(LEN, BLOCK).number; }
static void parts_sum(void) { number = gpt_partentry_checksum(img, LEN, header, BLOCK).number; }
static void slot_sum(void) { number = gpt_slot_sum(1, was, 128, is, 128, 1048448).number; }
static void write_primary(void) { number = gpt_write_primary(img, LEN, header, BLOCK).number; }
static void write_backup(void) { number = gpt_write_backup(img, LEN, backup, BLOCK).number; }
static void build(void) { number = gpt_build_from_header(header, BLOCK).number; }
static void build_new(void) {
    gpt_settings settings = gpt_settings_new(header.disk_guid);
    settings.backup_lba = BLOCKS - 1;
    number = gpt_build(settings, BLOCK).number;
}
static void from_bytes(void) { number = gpt_entry_from_bytes(was, 128).number; }
static void to_bytes(void) { gpt_entry_to_bytes(is, 128, map), number = 0; }
static void flags_of(void) { number = gpt_flags_of(0).required; }
static void flags_bits(void) { number = gpt_flags_bits(map.flags).number; }
static void is_used(void) { number = !gpt_is_used(map); }
static void sectors(void) { number = gpt_sectors_len(in_block(40)).number; }
static void bytes(void) { number = gpt_bytes_len(in_block(40), BLOCK).number; }
static void bytes_start(void) { number = gpt_bytes_start(in_block(40), BLOCK).number; }
static void write_entry(void) { number = gpt_write_entry(img, LEN, map, 3, 2, BLOCK, 128).number; }
static void zero_entries(void) { number = gpt_write_zero_entries(img, LEN, 0, 4, 100, BLOCK, 4096).number; }
static void read_partition(void) { number = gpt_read_partition(img, LEN, header, BLOCK, 128).number; }
static void count_partitions(void) { number = gpt_count_partitions(img, LEN, header, BLOCK).number; }
static void next_partition(void) { number = gpt_next_partition(img, LEN, header, BLOCK, 64).number; }
static void read_partitions(void) { number = gpt_file_read_partitions(img, LEN, header, BLOCK, (uint8_t *)rows, sizeof rows).number; }
static void uefi_primary(void) { number = gpt_uefi_read_primary_header(img, LEN, BLOCK).number; }
static void uefi_backup(void) { number = gpt_uefi_read_backup_header(img, LEN, BLOCK).number; }
static void uefi_partition(void) { number = gpt_uefi_read_partition(img, LEN, header, BLOCK, 128).number; }
static void uefi_count(void) { number = gpt_uefi_count_partitions(img, LEN, header, BLOCK).number; }
static void uefi_next(void) { number = gpt_uefi_next_partition(img, LEN, header, BLOCK, 64).number; }
static void uefi_read(void) { number = gpt_uefi_file_read_partitions(img, LEN, header, BLOCK, (uint8_t *)rows, sizeof rows).number; }
static void uefi_count_primary(void) { number = gpt_uefi_count_primary(img, LEN, BLOCK).number; }
static void uefi_count_backup(void) { number = gpt_uefi_count_backup(img, LEN, BLOCK).number; }
static void uefi_list_primary(void) { number = gpt_uefi_list_primary(img, LEN, BLOCK, (uint8_t *)rows, sizeof rows).number; }
static void uefi_list_backup(void) { number = gpt_uefi_list_backup(img, LEN, BLOCK, (uint8_t *)rows, sizeof rows).number; }
static void mbr_from_bytes(void) { number = gpt_mbr_from_bytes(img, BLOCK, BLOCK).number; }
static void mbr_from_image(void) { number = gpt_mbr_from_image(img, LEN, BLOCK).number; }
static void mbr_record_read(void) { number = gpt_mbr_record_from_bytes(img + 446, 16).number; }
static void mbr_record_bytes(void) { number = gpt_mbr_record_to_bytes(gpt_mbr_protective_record(9)).bytes[0]; }
static void mbr_bytes(void) { number = gpt_mbr_to_bytes(gpt_mbr_new(9)).bytes[0]; }
static void mbr_record(void) { number = gpt_mbr_record(gpt_mbr_new(9), 3).number; }
static void mbr_set(void) { number = gpt_mbr_set_record(gpt_mbr_new(9), 3, gpt_mbr_protective_record(9)).number; }
static void mbr_overwrite(void) { number = gpt_mbr_overwrite(img, LEN, gpt_mbr_new(LEN / BLOCK)).number; }
static void mbr_conservative(void) { number = gpt_mbr_update_conservative(img, LEN, gpt_mbr_new(LEN / BLOCK)).number; }
static void bootcode_read(void) { number = gpt_mbr_read_bootcode(img, LEN).number; }
static void bootcode_write(void) { number = gpt_mbr_write_bootcode(img, LEN, (gpt_bootcode){{1}}).number; }
static void signature_read(void) { number = gpt_mbr_read_disk_signature(img, LEN).number; }
static void signature_write(void) { number = gpt_mbr_write_disk_signature(img, LEN, (gpt_signature){{1}}).number; }

static char words[CARD_MESSAGE_SIZE];
static void version(void) { number = card_version().major; }
static void message(void) { number = card_message(words, sizeof words, CARD_OVERLAP, 0, 128).number; }
static void guid_to_text(void) { number = gpt_guid_to_text(words, sizeof words, map.part_type_guid).number; }
static void guid_from_text(void) { number = gpt_guid_from_text("ebd0a0a2-b9e5-4433-87c0-68b6b72699c7", 36).number; }
static void name_to_utf8(void) { number = gpt_name_to_utf8(words, sizeof words, (const uint16_t[]){0x6E, 0xD83D, 0xDD25}, 3).number; }
static void name_from_utf8(void) { number = gpt_name_from_utf8("north \xF0\x9F\x94\xA5", 10).number; }

typedef struct kind {
    const char *name;
    void (*call)(void);
} kind;
#define KIND(call) {#call, call}
static const kind kinds[] = {
    KIND(lay), KIND(check), KIND(put), KIND(clear), KIND(payload), KIND(count_used), KIND(next_used), KIND(read_slot), KIND(nth_used), KIND(list), KIND(free_runs),
    KIND(map_make), KIND(map_put), KIND(map_clear), KIND(map_lowest_free), KIND(map_used),
    KIND(write_label), KIND(read_label), KIND(judge),
    KIND(reader_copy), KIND(reader_count), KIND(reader_next), KIND(reader_slot), KIND(reader_list),
    KIND(start_put), KIND(start_clear), KIND(next_stage), KIND(start_repair), KIND(next_repair), KIND(last_repair),
    KIND(payload_place), KIND(read_payload), KIND(window_lay), KIND(window_check), KIND(window_put), KIND(window_clear), KIND(window_count_used),
    KIND(window_next_used), KIND(window_read_slot), KIND(window_nth_used), KIND(window_list), KIND(window_free_runs), KIND(window_map_make),
    KIND(window_payload_place), KIND(window_read_label), KIND(window_judge), KIND(window_reader_copy), KIND(window_reader_count), KIND(window_reader_next), KIND(window_reader_slot), KIND(window_reader_list),
    KIND(window_start_put), KIND(window_start_clear), KIND(window_next_stage), KIND(window_start_repair), KIND(window_next_repair), KIND(window_last_repair),
    KIND(crc32), KIND(crc32_next), KIND(read_primary), KIND(read_backup), KIND(find_backup), KIND(parts_sum), KIND(slot_sum), KIND(write_primary),
    KIND(write_backup), KIND(build), KIND(build_new), KIND(from_bytes), KIND(to_bytes), KIND(flags_of), KIND(flags_bits), KIND(is_used), KIND(sectors), KIND(bytes), KIND(bytes_start),
    KIND(write_entry), KIND(zero_entries), KIND(read_partition), KIND(count_partitions), KIND(next_partition), KIND(read_partitions),
    KIND(uefi_primary), KIND(uefi_backup), KIND(uefi_partition), KIND(uefi_count), KIND(uefi_next), KIND(uefi_read),
    KIND(uefi_count_primary), KIND(uefi_count_backup), KIND(uefi_list_primary), KIND(uefi_list_backup),
    KIND(mbr_from_bytes), KIND(mbr_from_image), KIND(mbr_record_read), KIND(mbr_record_bytes), KIND(mbr_bytes), KIND(mbr_record), KIND(mbr_set),
    KIND(mbr_overwrite), KIND(mbr_conservative), KIND(bootcode_read), KIND(bootcode_write), KIND(signature_read), KIND(signature_write),
    KIND(version), KIND(message), KIND(guid_to_text), KIND(guid_from_text), KIND(name_to_utf8), KIND(name_from_utf8),
};
enum { KINDS = sizeof kinds / sizeof kinds[0] };

static void must(bool fact, const char *what) {
    if (fact) return;
    printf("stack: %s\n", what);
    exit(EXIT_FAILURE);
}

/* Lays the card again: all 128 slots used, in descending blocks, so that the check compares each with those before it, and a label in slot 64. The windows and
   the states come from copies of it. */
static void fill(void) {
    lay();
    for (uint32_t slot = 1; slot <= 128; slot++) must(card_put(img, LEN, BLOCK, slot, in_block(162 - slot)).number == 0, "a put was refused");
    must(card_write_label(img, LEN, BLOCK, 64, (card_label){2026, 7, 14, 1, 1}).number == 0, "a label was refused");
    header = gpt_read_primary_header(img, LEN, BLOCK).header;
    backup = gpt_read_backup_header(img, LEN, BLOCK).header;
    memcpy(spare, img, LEN);
    memcpy(head, img, HEAD);
    memcpy(tail, img + LEN - TAIL, TAIL);
    update = card_start_clear(spare, LEN, BLOCK, 64).state;
    repair = card_start_repair(spare, LEN, BLOCK).state;
}

static void *run(void *call) {
    ((const kind *)call)->call();
    return NULL;
}

/* Runs a call on a stack of its own. */
static void on_stack(uint8_t *stack, size_t size, const kind *call) {
    pthread_attr_t attr;
    pthread_t id;
    must(pthread_attr_init(&attr) == 0 && pthread_attr_setstack(&attr, stack, size) == 0, "a stack was not taken");
    must(pthread_create(&id, &attr, run, (void *)call) == 0 && pthread_join(id, NULL) == 0, "a thread did not run");
    pthread_attr_destroy(&attr);
}

static size_t painted(const kind *call) {
    static uint8_t stack[ROOM] __attribute__((aligned(PAGE)));
    size_t left = 0;
    memset(stack, PAINT, ROOM);
    on_stack(stack, ROOM, call);
    while (left < ROOM && stack[left] == PAINT) left++;
    return ROOM - left;
}

int main(int count, char **arguments) {
    const bool each = count > 1 && strcmp(arguments[1], "each") == 0;
    static const kind none = KIND(nothing);
    uint8_t *room = mmap(NULL, PAGE + THREAD, PROT_READ | PROT_WRITE, MAP_PRIVATE | MAP_ANONYMOUS, -1, 0);
    must(room != MAP_FAILED && mprotect(room, PAGE, PROT_NONE) == 0, "no memory for a stack");
    size_t own = painted(&none), most = 0;
    int wrong = 0;
    for (int k = 0; k < KINDS; k++) {
        fill();
        size_t need = painted(&kinds[k]) - own;
        if (each) printf("%s %zu\n", kinds[k].name, need);
        if (number != 0) printf("stack: %s was refused by %u\n", kinds[k].name, (unsigned)number);
        wrong += number != 0;
        if (need > most) most = need;
        if (need <= CARD_STACK && own + need <= THREAD) {
            fill();
            on_stack(room + PAGE, THREAD, &kinds[k]);
            continue;
        }
        wrong++;
        printf("stack: %s needs %zu bytes\n", kinds[k].name, need);
    }
    if (wrong != 0) return EXIT_FAILURE;
    printf("stack: a call needs at most %zu bytes, and the header says %d\n", most, CARD_STACK);
    return EXIT_SUCCESS;
}
