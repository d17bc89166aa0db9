/* Every export of include/card.h between pages that cannot be touched. Each slice that is lent to a call stands in a mapping of its own: it ends exactly at such a
   page or, in half of the calls, begins exactly behind one, and a slice that the call only reads is mapped read-only. So a byte read or written outside, or a write to a
   const slice, is a fault, which is told with the export, the seed and the call's number. After each call: its number is one of the table, the bytes beside a slice are as before, and a refused call has changed no byte.

   Usage: guard [SEED [CALLS [FIRST]]], for 200,000 calls from call 0 on; `guard names` prints the exports of the table at the end of this file, which tests/c/exports.sh
   compares with the header. A call's arguments come from the seed and its number alone, so that one call can be made again. Exit status 1 after a fault or anything else that is wrong. */
#define _GNU_SOURCE
#include "card.h"
#include <inttypes.h>
#include <signal.h>
#include <stdio.h>
#include <stdlib.h>
#include <string.h>
#include <sys/mman.h>
#include <sys/resource.h>
#include <sys/wait.h>
#include <unistd.h>

#define PAGE 4096
#define ROOM (33 * PAGE)
#define BESIDE 512
#define GUARD (1 << 20)
#define SLICES 4
#define PAINT 0x5A
#define ARRAY 16384

static void die(const char *what) {
    printf("guard: %s\n", what);
    exit(EXIT_FAILURE);
}

/* ---- random numbers: SplitMix64, begun anew for each call */

static uint64_t state;

static uint64_t dice(void) {
    uint64_t x = state += 0x9E3779B97F4A7C15;
    x = (x ^ x >> 30) * 0xBF58476D1CE4E5B9;
    x = (x ^ x >> 27) * 0x94D049BB133111EB;
    return x ^ x >> 31;
}

static uint64_t below(uint64_t n) { return dice() % n; }

#define PICK(...) pick((const uint64_t[]){__VA_ARGS__}, sizeof((const uint64_t[]){__VA_ARGS__}) / sizeof(uint64_t))
static uint64_t pick(const uint64_t *of, size_t n) { return of[below(n)]; }

/* A number at an edge, or any. */
static uint64_t wild(void) {
    switch (below(6)) {
    case 0: return below(4);
    case 1: return UINT64_MAX - below(4);
    case 2: return ((uint64_t)1 << below(64)) + below(3) - 1;
    case 3: return (uint64_t)UINT32_MAX + below(4) - 1;
    case 4: return below(300);
    default: return dice();
    }
}

static void scatter(void *to, size_t n) {
    uint8_t *at = to;
    for (; n >= 8; n -= 8, at += 8) {
        uint64_t x = dice();
        memcpy(at, &x, 8);
    }
    while (n-- > 0) *at++ = (uint8_t)dice();
}

static gpt_guid guid_of_dice(void) {
    gpt_guid guid;
    scatter(&guid, sizeof guid);
    return guid;
}

/* ---- memory between guards: one piece of memory that is mapped three times, to be filled and compared here, to be lent for writing, and to be lent for reading */

typedef struct piece {
    uint8_t *own, *writable, *readable;
} piece;

/* What is lent to the call in hand: where it begins in its piece, and its bytes before the call. */
typedef struct slice {
    size_t from, len;
    bool writes;
    uint8_t was[ROOM];
} slice;

static piece pieces[SLICES];
static slice slices[SLICES];
static unsigned lent;
static uint64_t turn;

static uint8_t *view(int file, int protection) {
    uint8_t *all = mmap(NULL, ROOM + 2 * GUARD, PROT_NONE, MAP_PRIVATE | MAP_ANONYMOUS | MAP_NORESERVE, -1, 0);
    if (all == MAP_FAILED || mmap(all + GUARD, ROOM, protection, MAP_SHARED | MAP_FIXED, file, 0) == MAP_FAILED) die("no memory between guards");
    return all + GUARD;
}

static void make_pieces(void) {
    for (unsigned k = 0; k < SLICES; k++) {
        int file = memfd_create("guard", 0);
        if (file < 0 || ftruncate(file, ROOM) != 0) die("no memory for the slices");
        pieces[k] = (piece){view(file, PROT_READ | PROT_WRITE), view(file, PROT_READ | PROT_WRITE), view(file, PROT_READ)};
        close(file);
    }
}

/* The bytes beside a slice in its piece: behind it where it begins at a guard, else before it. */
static size_t beside(const slice *s, size_t *n) {
    size_t rest = ROOM - s->len;
    *n = rest < BESIDE ? rest : BESIDE;
    return s->from == 0 ? s->len : s->from - *n;
}

/* Lends so many bytes. The first slice of a call begins behind a guard in every other turn, the next in every other two turns, and so on. */
static void *lend(const void *bytes, size_t len, bool writes) {
    unsigned k = lent++;
    slice *s = &slices[k];
    size_t n, at;
    if (k >= SLICES || len > ROOM) die("a slice that has no room");
    s->from = turn >> k & 1 ? 0 : ROOM - len;
    s->len = len;
    s->writes = writes;
    memcpy(s->was, bytes, len);
    memcpy(pieces[k].own + s->from, bytes, len);
    at = beside(s, &n);
    memset(pieces[k].own + at, PAINT, n);
    return (writes ? pieces[k].writable : pieces[k].readable) + s->from;
}

/* The last number that the call in hand can give: 39 and 40 are for the calls that read a text. */
static uint64_t last_number = CARD_EMPTY_LIST;

/* What is wrong after a call that came back with this number; NULL if nothing is. */
static const char *wrong_after(uint64_t number) {
    if (number > last_number) return "its number is none of the table";
    for (unsigned k = 0; k < lent; k++) {
        const slice *s = &slices[k];
        size_t n, at = beside(s, &n);
        for (size_t i = 0; i < n; i++) {
            if (pieces[k].own[at + i] != PAINT) return "a byte beside a slice has changed";
        }
        if ((number != 0 || !s->writes) && memcmp(pieces[k].own + s->from, s->was, s->len) != 0) return "a byte has changed that must stay";
    }
    return NULL;
}

/* ---- whole cards, made once: laid, with used slots and labels. Of a card that is too large for memory the bytes are head and tail alone. */

typedef struct base {
    uint8_t *bytes;
    size_t len;
    uint64_t b, blocks, free; /* free: the first block behind the used ones */
    unsigned used;            /* slots 1, 3, 5 .. as long as there are odd ones, then 2, 4 .. */
    bool wide;
} base;

static base bases[40];
static unsigned bases_n;

static size_t head_of(uint64_t b) { return 2 * b + ARRAY; }
static size_t tail_of(uint64_t b) { return b + ARRAY; }
static uint32_t nth_slot(unsigned k) { return k < 64 ? 2 * k + 1 : 2 * k - 126; }

static gpt_partition record(uint64_t first, uint64_t last) {
    gpt_partition p = {.part_type_guid = guid_of_dice(), .part_guid = guid_of_dice(), .first_lba = first, .last_lba = last};
    p.flags.owner = (uint16_t)dice();
    for (unsigned i = 0; i < below(37); i++) p.name[i] = (uint16_t)dice();
    return p;
}

static void label_into(uint8_t *at) {
    static const uint8_t good[13] = {'F', 'B', 'M', 1, 0, 0xEA, 7, 7, 14, 3, 0, 12, 0};
    memcpy(at, good, 13);
    if (below(12) == 0) at[below(13)] = (uint8_t)dice();
}

static void make_base(uint64_t b, uint64_t blocks, unsigned used) {
    bool wide = blocks > ROOM / b;
    base *c = &bases[bases_n++];
    *c = (base){.len = wide ? head_of(b) + tail_of(b) : blocks * b, .b = b, .blocks = blocks, .free = 2 + ARRAY / b, .used = used, .wide = wide};
    c->bytes = malloc(c->len);
    if (!c->bytes) die("no memory for the cards");
    scatter(c->bytes, c->len);
    uint8_t *tail = c->bytes + c->len - tail_of(b);
    uint32_t number = card_window_lay(c->bytes, head_of(b), tail, tail_of(b), blocks, b, guid_of_dice()).number;
    uint64_t usable = blocks - 2 * (ARRAY / b) - 3, step = 2 * used <= usable ? 2 : 1; /* with gaps, if there is room for them */
    for (unsigned k = 0; k < used && number == 0; k++) {
        uint64_t last = c->free + (wide && below(4) == 0);
        number = card_window_put(c->bytes, head_of(b), tail, tail_of(b), blocks, b, nth_slot(k), record(c->free, last)).number;
        if (!wide) label_into(c->bytes + c->free * b);
        c->free = last + step;
    }
    if (number != 0) die("a card that must be laid is refused");
}

static void make_bases(void) {
    const uint64_t small[] = {68, 69, 70, 100, 200, 264}, large[] = {12, 13, 16, 24, 33};
    for (unsigned i = 0; i < 6; i++) {
        make_base(512, small[i], 0);
        make_base(512, small[i], small[i] < 70 ? 1 : small[i] / 2 - 34);
    }
    make_base(512, 264, 128);
    for (unsigned i = 0; i < 5; i++) {
        make_base(4096, large[i], 0);
        make_base(4096, large[i], large[i] < 14 ? 1 : large[i] / 2 - 5);
    }
    for (uint64_t b = 512; b <= 4096; b += 3584) {
        make_base(b, (uint64_t)1 << 33, 5);
        make_base(b, UINT64_MAX / b, 128);
        make_base(b, UINT32_MAX, 2);
        make_base(b, (uint64_t)1 << 20, 0);
    }
}

/* ---- what is drawn for a call */

static uint8_t card[ROOM];  /* the card's bytes, a base that was changed */
static size_t card_len;
static const base *from;
static uint64_t b;

static uint64_t get(const uint8_t *at, unsigned n) {
    uint64_t x = 0;
    while (n-- > 0) x = x << 8 | at[n];
    return x;
}

static void set(uint8_t *at, unsigned n, uint64_t x) {
    for (; n-- > 0; x >>= 8) *at++ = (uint8_t)x;
}

/* CRC-32 by a table of bytes; no call of the library. */
static uint32_t sum(const uint8_t *bytes, size_t n) {
    static uint32_t table[256];
    for (uint32_t i = 0; table[255] == 0 && i < 256; i++) {
        table[i] = i;
        for (int k = 0; k < 8; k++) table[i] = table[i] >> 1 ^ (table[i] & 1 ? 0xEDB88320 : 0);
    }
    uint32_t x = UINT32_MAX;
    while (n-- > 0) x = x >> 8 ^ table[(x ^ *bytes++) & 255];
    return ~x;
}

static uint8_t *header_at(bool back) { return back ? card + card_len - from->b : card + from->b; }
static uint8_t *array_at(bool back) { return back ? card + card_len - tail_of(from->b) : card + 2 * from->b; }

/* A header's own sum over so many bytes, at most a block. */
static void sum_header(uint8_t *at, uint64_t size) {
    set(at + 16, 4, 0);
    set(at + 16, 4, sum(at, size > from->b ? from->b : size));
}

static void sum_table(bool back) {
    set(header_at(back) + 88, 4, sum(array_at(back), ARRAY));
    sum_header(header_at(back), 92);
}

/* Some changed bytes, mostly in the tables. */
static void flip(void) {
    for (unsigned n = 1 + (unsigned)below(4); n > 0; n--) {
        size_t at = below(4) == 0 ? below(card_len) : below(2) ? below(head_of(from->b)) : card_len - 1 - below(tail_of(from->b));
        card[at] ^= (uint8_t)(1 << below(8));
    }
}

/* A field of a header, with a right sum. */
static void change_header(void) {
    static const struct { unsigned at, n; } fields[] = {{8, 4}, {12, 4}, {20, 4}, {24, 8}, {32, 8}, {40, 8}, {48, 8}, {56, 8}, {72, 8}, {80, 4}, {84, 4}, {88, 4}};
    unsigned k = (unsigned)below(12);
    bool back = below(2);
    uint8_t *at = header_at(back);
    uint64_t x = below(2) ? wild() : get(at + fields[k].at, fields[k].n) + below(5) - 2;
    if (k == 10) x = PICK(0, 1, 64, 127, 129, 256, 512, 4096, 8192, UINT32_MAX, 0x80000000);
    set(at + fields[k].at, fields[k].n, x);
    sum_header(at, k == 1 && below(2) ? x : 92);
}

/* A field of an entry, in one table or in both, with right sums. */
static void change_entry(void) {
    static const struct { unsigned at, n; } fields[] = {{0, 8}, {8, 8}, {16, 8}, {24, 8}, {32, 8}, {40, 8}, {48, 8}, {56, 4}, {124, 4}};
    unsigned k = (unsigned)below(9), tables = 1 + (unsigned)below(3);
    size_t place = (below(2) && from->used ? nth_slot((unsigned)below(from->used)) - 1 : below(128)) * 128;
    uint64_t x = below(3) ? wild() : get(array_at(false) + place + fields[k].at, fields[k].n) + below(3) - 1;
    for (unsigned back = 0; back < 2; back++) {
        if (!(tables >> back & 1)) continue;
        set(array_at(back) + place + fields[k].at, fields[k].n, x);
        if (k == 0 && below(2)) memset(array_at(back) + place, 0, 16);
        if (k == 2 && from->used) memcpy(array_at(back) + place + 16, array_at(back) + (nth_slot((unsigned)below(from->used)) - 1) * 128 + 16, 16);
        sum_table(back);
    }
}

/* A put, a clear or a repair that is cut after some of its stages. */
static void cut(void) {
    size_t h = head_of(from->b), t = tail_of(from->b), n = below(4);
    uint8_t *tail = card + card_len - t;
    if (below(3) == 0) {
        memset(header_at(below(2)), 0, 92);
        card_repair_step step = card_window_start_repair(card, h, tail, t, from->blocks, from->b);
        for (n = below(ARRAY / from->b + 3); n > 0 && step.number == 0; n--) step = card_window_next_repair(card, h, tail, t, from->blocks, from->b, step.state.next, step.state);
        return;
    }
    uint32_t slot = 1 + (uint32_t)below(128);
    card_update_step step = below(2) ? card_window_start_clear(card, h, tail, t, from->blocks, from->b, slot)
                                     : card_window_start_put(card, h, tail, t, from->blocks, from->b, slot, record(from->free, from->free));
    while (n-- > 0 && step.number == 0) step = card_window_next_stage(card, h, tail, t, from->blocks, from->b, step.state.next, step.state);
}

/* One table of another maker: its header of so many bytes, its array of so many entries of so many bytes at a block. */
static void other_table(uint64_t own, uint64_t other, uint64_t start, uint64_t size, uint64_t count, uint64_t stated) {
    uint8_t *at = card + own * from->b, *array = card + start * from->b;
    uint64_t last = card_len / from->b - 1;
    memset(array, 0, count * size);
    for (uint64_t k = 0; k < count; k++) {
        if (below(2)) continue;
        scatter(array + k * size, size);
        set(array + k * size + 32, 8, below(last));
        set(array + k * size + 40, 8, below(last));
        if (below(8) == 0) memset(array + k * size, 0, 16);
    }
    memset(at, 0, from->b);
    memcpy(at, "EFI PART\0\0\1", 12);
    const uint64_t fields[] = {own, other, start + 1, last - 1};
    for (unsigned k = 0; k < 4; k++) set(at + 24 + 8 * k, 8, fields[k]);
    scatter(at + 56, 16);
    set(at + 12, 4, stated);
    set(at + 72, 8, start);
    set(at + 80, 4, count);
    set(at + 84, 4, size);
    set(at + 88, 4, sum(array, count * size));
    if (stated > 92 && stated <= from->b && below(2)) scatter(at + 92, stated - 92);
    sum_header(at, stated);
}

static void other_maker(void) {
    uint64_t size = (uint64_t)128 << below(6), last = card_len / from->b - 1, half = card_len / 2 - 3 * from->b;
    uint64_t count = 1 + below(half / size), blocks = (count * size + from->b - 1) / from->b;
    uint64_t stated = PICK(92, 92, 96, 128, 512, from->b, from->b + 1, 91, 0);
    other_table(1, last, 2, size, count, stated);
    other_table(last, 1, last - blocks, size, count, stated);
}

/* Another length: at an edge, longer or shorter by little, or any. */
static void other_length(void) {
    size_t all = card_len, len;
    switch (below(4)) {
    case 0: len = PICK(0, 1, 15, 16, 439, 440, 443, 444, 445, 510, 511, 512, 513); break;
    case 1: len = PICK(1, 1, 2, 3, 3, 4, 11, 12, 67, 68) * from->b + below(3) - 1; break;
    case 2: len = all + below(2 * from->b) - from->b; break;
    default: len = below(ROOM + 1);
    }
    card_len = len > ROOM ? ROOM : len;
    if (card_len > all) scatter(card + all, card_len - all);
}

static uint64_t other_block_size(void) { return below(2) ? 4608 - from->b : PICK(0, 1, 2, 92, 511, 513, 1024, 2048, 4095, 4097, 8192, UINT32_MAX, UINT64_MAX, (uint64_t)1 << 63, 128); }

static void draw_card(void) {
    from = &bases[below(bases_n)];
    card_len = from->len;
    b = from->b;
    memcpy(card, from->bytes, card_len);
    switch (below(20)) {
    case 0: case 1: flip(); break;
    case 2: case 3: case 4: change_header(); break;
    case 5: case 6: change_entry(); break;
    case 7: case 8: cut(); break;
    case 9: case 10: other_length(); break;
    case 11: case 12: if (card_len > 16 * b) other_maker(); break;
    case 13: b = other_block_size(); break;
    case 14: if (below(4) == 0) scatter(card, card_len); break;
    default: break;
    }
}

static uint32_t draw_slot(void) {
    if (from->used && below(2)) return nth_slot((unsigned)below(from->used));
    return below(8) ? 1 + (uint32_t)below(128) : (uint32_t)PICK(0, 129, 128, UINT32_MAX, 0x80000000, wild());
}

static gpt_flags draw_flags(void) {
    gpt_flags flags = {below(3) ? 0 : wild(), (uint16_t)dice(), below(2), below(2), below(2)};
    return flags;
}

static gpt_partition draw_partition(void) {
    uint64_t first = from->free + below(3), last = first + below(3);
    gpt_partition p = record(first, last);
    if (from->used && below(4) == 0) memcpy(&p.part_guid, from->bytes + 2 * from->b + (draw_slot() - 1) % 128 * 128 + 16, 16);
    if (below(6) == 0) p.flags = draw_flags();
    switch (below(12)) {
    case 0: p.first_lba = wild(); break;
    case 1: p.last_lba = wild(); break;
    case 2: p.first_lba = p.last_lba = wild(); break;
    case 3: p.first_lba = 2 + ARRAY / from->b + below(20); break;
    case 4: memset(&p.part_type_guid, 0, 16); break;
    default: break;
    }
    return p;
}

/* The header in one of the card's two places, by its fields, often with wild ones and then at times with the right sum of the array that it names. */
static gpt_header draw_header(void) {
    static const uint8_t none[92];
    bool back = below(2);
    const uint8_t *at = card_len < 3 * from->b ? none : header_at(back);
    gpt_header h = {.revision = {(uint16_t)get(at + 10, 2), (uint16_t)get(at + 8, 2)}, .header_size_le = (uint32_t)get(at + 12, 4)};
    h.current_lba = get(at + 24, 8), h.backup_lba = get(at + 32, 8), h.first_usable = get(at + 40, 8), h.last_usable = get(at + 48, 8);
    memcpy(&h.disk_guid, at + 56, 16);
    h.part_start = get(at + 72, 8), h.num_parts = (uint32_t)get(at + 80, 4), h.part_size = (uint32_t)get(at + 84, 4), h.crc32_parts = (uint32_t)get(at + 88, 4);
    for (unsigned n = (unsigned)below(3); n > 0 && below(2); n--) {
        switch (below(8)) {
        case 0: h.current_lba = wild(); break;
        case 1: h.backup_lba = wild(); break;
        case 2: h.first_usable = wild(); break;
        case 3: h.last_usable = wild(); break;
        case 4: h.part_start = below(2) ? wild() : below(card_len / from->b + 3); break;
        case 5: h.num_parts = (uint32_t)PICK(0, 1, 4, 127, 129, 256, 1000, UINT32_MAX, wild()); break;
        case 6: h.part_size = (uint32_t)PICK(0, 1, 92, 127, 129, 256, 512, 4096, 8192, UINT32_MAX, 0x80000000, wild()); break;
        default: h.crc32_parts = (uint32_t)dice();
        }
    }
    uint64_t n = (uint64_t)h.num_parts * h.part_size;
    if (below(2) && h.part_start <= ROOM && n <= ROOM && h.part_start * b <= card_len && n <= card_len - h.part_start * b) h.crc32_parts = sum(card + h.part_start * b, n);
    return h;
}

static card_update draw_update(void) {
    card_update u = {.next = 2 + (uint32_t)below(3), .slot = 1 + (uint32_t)below(128), .b = b, .len = from->blocks * from->b, .guid = guid_of_dice(), .parts = (uint32_t)dice()};
    scatter(u.entry, 128);
    switch (below(12)) {
    case 0: u.next = (uint32_t)PICK(0, 1, 5, 6, wild()); break;
    case 1: u.slot = (uint32_t)PICK(0, 129, UINT32_MAX, wild()); break;
    case 2: u.b = PICK(0, 1, 512, 4096, wild()); break;
    case 3: u.len = PICK(0, 1, card_len + 1, card_len - 1, wild()); break;
    case 4: u.len = card_len; break;
    default: break;
    }
    return u;
}

static card_repair draw_repair(void) {
    card_update u = draw_update();
    card_repair r = {.next = 2 + (uint32_t)below(ARRAY / from->b + 1), .back = below(2), .b = u.b, .len = u.len, .guid = u.guid, .parts = u.parts};
    if (below(8) == 0) r.next = (uint32_t)PICK(0, 1, 6, 7, 34, 35, 36, UINT32_MAX, wild());
    return r;
}

static gpt_settings draw_settings(void) {
    gpt_settings s = {guid_of_dice(), below(3) ? from->blocks - 1 : wild(), below(2) ? 0 : wild(), below(2) ? 0 : wild(), 128, 128, below(2)};
    if (below(4) == 0) s.num_parts = (uint32_t)wild();
    if (below(4) == 0) s.part_size = (uint32_t)wild();
    return s;
}

/* All that a call can be handed. Rows of the table below say which slices they want lent; the numbers are drawn for all. */
static struct drawn {
    uint8_t *img, *head, *tail, *out;
    const uint8_t *bytes, *was, *is, *labels;
    size_t img_len, head_len, tail_len, out_len, bytes_len, was_len, is_len, labels_len, starts_len, lengths_len, slots_len, text_len, units_len;
    uint64_t *starts, *lengths;
    const uint32_t *slots;
    const uint16_t *units;
    const char *text;
    uint64_t b, blocks, index, start, count, any, place;
    uint32_t slot, after, stage, entry_size, any32;
    gpt_guid guid;
    gpt_partition partition;
    gpt_header header;
    gpt_settings settings;
    gpt_flags flags;
    card_slot_map map;
    card_label label;
    card_update update;
    card_repair repair;
    gpt_part_record part_record;
    gpt_mbr mbr;
    gpt_bootcode bootcode;
    gpt_signature signature;
} d;

enum lends { IMAGE = 1, WINDOWS = 2, WRITES = 4, BYTES = 8, OUT = 16, SLOTS = 32, RUNS = 64, LABELS = 128, PAIR = 256, GUID = 512, UTF8 = 1024, UNITS = 2048, SHORT = 4096 };

static void lend_windows(bool writes) {
    size_t head = head_of(b == 4096 ? 4096 : 512), tail = tail_of(b == 4096 ? 4096 : 512);
    d.head_len = head > card_len ? card_len : head;
    d.tail_len = tail > card_len ? card_len : tail;
    if (below(16) == 0) d.head_len -= below(d.head_len + 1);
    if (below(16) == 0) d.tail_len -= d.tail_len ? below(2) : 0;
    d.head = lend(card, d.head_len, writes);
    d.tail = lend(card + card_len - d.tail_len, d.tail_len, writes);
    d.blocks = below(12) ? from->wide || card_len < from->b ? from->blocks : card_len / from->b : wild();
}

static const uint8_t *lend_bytes(size_t *len) {
    static uint8_t bytes[ROOM];
    *len = below(8) ? PICK(0, 1, 12, 13, 14, 15, 16, 16, 17, 127, 128, 129, 511, 512, 513, 4095, 4096, 4096, 4097) : below(40000);
    scatter(bytes, *len < 600 ? 600 : *len);
    if (below(2)) bytes[510] = 0x55, bytes[511] = 0xAA;
    if (below(2)) label_into(bytes);
    return lend(bytes, *len, false);
}

static const uint8_t *lend_entry(size_t *len) {
    uint8_t bytes[130];
    *len = below(4) ? 128 : PICK(0, 1, 127, 129, 130);
    scatter(bytes, sizeof bytes);
    return lend(bytes, *len, false);
}

static void lend_out(void) {
    static uint8_t bytes[ROOM];
    size_t rows = 136 * (size_t)from->used;
    d.out_len = below(2) ? rows : PICK(0, 1, 127, 128, 129, 135, 136, 137, rows + 1, rows ? rows - 1 : 0, 136 * 128, below(4096), 136 * 400);
    scatter(bytes, d.out_len);
    d.out = lend(bytes, d.out_len, true);
}

static uint64_t *lend_run(size_t *len) {
    uint64_t row[140];
    *len = below(3) == 0 ? 129 : PICK(0, 1, 2, 64, 65, 128, 130, 140, below(140), from->used, from->used + 1, from->used ? from->used - 1 : 0);
    scatter(row, sizeof row);
    return lend(row, *len * 8, true);
}

static void lend_slots(void) {
    uint32_t row[300];
    d.slots_len = below(4) ? below(12) : PICK(0, 1, 128, 129, 300);
    for (size_t i = 0; i < 300; i++) row[i] = from->used && below(64) ? nth_slot((unsigned)below(from->used)) : draw_slot();
    d.slots = lend(row, d.slots_len * 4, false);
}

static void lend_labels(void) {
    uint8_t row[13 * 300 + 13];
    for (size_t i = 0; i <= 300; i++) label_into(row + 13 * i);
    if (below(2)) for (size_t i = 0; i <= 300; i++) row[13 * i + 7] = 7, row[13 * i + 8] = 14;
    d.labels_len = 13 * d.slots_len + (below(8) ? 0 : below(14));
    if (below(12) == 0 && d.labels_len) d.labels_len--;
    d.labels = lend(row, d.labels_len, false);
}

/* The text of a GUID, at times cut, longer or with another byte. */
static void lend_guid_text(void) {
    char text[40];
    gpt_guid guid = guid_of_dice();
    const uint8_t *t = guid.tail;
    snprintf(text, sizeof text, below(2) ? "%08x-%04x-%04x-%02x%02x-%02x%02x%02x%02x%02x%02xab" : "%08X-%04X-%04X-%02X%02X-%02X%02X%02X%02X%02X%02X--", (unsigned)guid.time_low,
             guid.time_mid, guid.time_high, t[0], t[1], t[2], t[3], t[4], t[5], t[6], t[7]);
    if (below(3) == 0) text[below(38)] = (char)dice();
    d.text_len = below(4) ? 36 : below(39);
    d.text = lend(text, d.text_len, false);
}

/* A text of characters of one to four bytes, at times too long, cut or with another byte. */
static void lend_utf8(void) {
    static const char *const characters[] = {"a", "\xC3\xA9", "\xE2\x82\xAC", "\xF0\x9F\x94\xA5", "\xC2\x80", "\xE0\xA0\x80", "\xED\x9F\xBF", "\xEF\xBF\xBF", "\xF4\x8F\xBF\xBF"};
    char text[200];
    size_t n = 0;
    for (uint64_t count = below(3) ? below(20) : below(40); count > 0; count--) {
        const char *c = characters[below(sizeof characters / sizeof *characters)];
        memcpy(text + n, c, strlen(c));
        n += strlen(c);
    }
    if (n > 0 && below(4) == 0) text[below(n)] = (char)dice();
    if (n > 0 && below(4) == 0) n -= below(n < 4 ? n : 4);
    d.text_len = n;
    d.text = lend(text, n, false);
}

/* UTF-16 units, paired and lone surrogates among them. */
static void lend_units(void) {
    uint16_t units[50];
    d.units_len = below(3) ? below(12) : below(50);
    for (size_t i = 0; i < d.units_len; i++) units[i] = (uint16_t)PICK(0x41, 0xE9, 0x20AC, 0xD800 + below(0x400), 0xDC00 + below(0x400), below(40) ? 0xFFFF : 0, dice());
    d.units = lend(units, d.units_len * sizeof *units, false);
}

/* Room for a text: about as much as it takes. */
static void lend_room(void) {
    uint8_t room[200];
    scatter(room, sizeof room);
    d.out_len = below(sizeof room + 1);
    d.out = lend(room, d.out_len, true);
}

static void lend_all(unsigned lends) {
    bool writes = lends & WRITES;
    lent = 0;
    d.img_len = card_len;
    if (lends & IMAGE) d.img = lend(card, card_len, writes);
    if (lends & WINDOWS) lend_windows(writes);
    if (lends & BYTES) d.bytes = lend_bytes(&d.bytes_len);
    if (lends & OUT) lend_out();
    if (lends & SLOTS) lend_slots();
    if (lends & LABELS) lend_labels();
    if (lends & RUNS) d.starts = lend_run(&d.starts_len), d.lengths = lend_run(&d.lengths_len);
    if (lends & SHORT) lend_room();
    if (lends & GUID) lend_guid_text();
    if (lends & UTF8) lend_utf8();
    if (lends & UNITS) lend_units();
    if (lends & PAIR) d.was = lend_entry(&d.was_len), d.is = lend_entry(&d.is_len);
}

static void draw_numbers(void) {
    d.b = b;
    d.any = wild();
    d.any32 = (uint32_t)wild();
    d.slot = draw_slot();
    d.after = below(4) ? (uint32_t)below(130) : d.any32;
    d.place = below(4) ? below(600) : wild();
    d.index = below(4) ? below(140) : wild();
    d.count = below(4) ? below(140) : wild();
    d.start = below(4) ? below(card_len / from->b + 2) : wild();
    d.entry_size = (uint32_t)(below(2) ? 128 : PICK(0, 1, 127, 129, 256, 512, 4095, 4096, 4097, UINT32_MAX, wild()));
    d.guid = guid_of_dice();
    d.partition = draw_partition();
    d.header = draw_header();
    d.settings = draw_settings();
    d.flags = draw_flags();
    d.map = (card_slot_map){below(2) ? UINT64_MAX : dice(), below(2) ? UINT64_MAX : wild()};
    d.label = (card_label){(uint16_t)dice(), (uint8_t)below(14), (uint8_t)below(33), (uint16_t)dice(), (uint16_t)dice()};
    d.update = draw_update();
    d.repair = draw_repair();
    d.stage = below(8) ? d.update.next : (uint32_t)PICK(0, 1, 2, 3, 4, 5, 34, 35, wild());
    scatter(&d.part_record, sizeof d.part_record);
    scatter(&d.mbr, sizeof d.mbr);
    scatter(&d.bootcode, sizeof d.bootcode);
    scatter(&d.signature, sizeof d.signature);
}

/* ---- the exports. A row: the name; whether it can refuse; what it wants lent; the call, as its number, or 0 where an answer has none. */

#define YES true
#define NO false
#define IMG d.img, d.img_len
#define WIN d.head, d.head_len, d.tail, d.tail_len, d.blocks, d.b
#define ROWS d.starts, d.starts_len, d.lengths, d.lengths_len
#define TO (char *)d.out, d.out_len
#define EXPORTS(ROW) \
    ROW(card_lay, YES, IMAGE | WRITES, card_lay(IMG, d.b, d.guid).number) \
    ROW(card_check, YES, IMAGE, card_check(IMG, d.b).number) \
    ROW(card_put, YES, IMAGE | WRITES, card_put(IMG, d.b, d.slot, d.partition).number) \
    ROW(card_clear, YES, IMAGE | WRITES, card_clear(IMG, d.b, d.slot).number) \
    ROW(card_write_payload, YES, IMAGE | WRITES | BYTES, card_write_payload(IMG, d.b, d.slot, d.place, d.bytes, d.bytes_len).number) \
    ROW(card_count_used, YES, IMAGE, card_count_used(IMG, d.b).number) \
    ROW(card_next_used, YES, IMAGE, card_next_used(IMG, d.b, d.after).number) \
    ROW(card_read_slot, YES, IMAGE, card_read_slot(IMG, d.b, d.slot).number) \
    ROW(card_nth_used, YES, IMAGE, card_nth_used(IMG, d.b, d.after).number) \
    ROW(card_list, YES, IMAGE | OUT, card_list(IMG, d.b, d.out, d.out_len).number) \
    ROW(card_free_runs, YES, IMAGE | RUNS, card_free_runs(IMG, d.b, ROWS).number) \
    ROW(card_map_make, YES, IMAGE, card_map_make(IMG, d.b).number) \
    ROW(card_map_put, YES, IMAGE | WRITES, card_map_put(IMG, d.b, d.slot, d.partition, d.map).answer.number) \
    ROW(card_map_clear, YES, IMAGE | WRITES, card_map_clear(IMG, d.b, d.slot, d.map).answer.number) \
    ROW(card_map_lowest_free, YES, 0, card_map_lowest_free(d.map).number) \
    ROW(card_map_used, NO, 0, card_map_used(d.map) > 128 ? UINT64_MAX : 0) \
    ROW(card_read_label, YES, IMAGE, card_read_label(IMG, d.b, d.slot).number) \
    ROW(card_write_label, YES, IMAGE | WRITES, card_write_label(IMG, d.b, d.slot, d.label).number) \
    ROW(card_judge, YES, IMAGE | SLOTS, card_judge(IMG, d.b, d.slots, d.slots_len).number) \
    ROW(card_window_read_label, YES, WINDOWS | BYTES, card_window_read_label(WIN, d.slot, d.bytes, d.bytes_len).number) \
    ROW(card_window_judge, YES, WINDOWS | SLOTS | LABELS, card_window_judge(WIN, d.slots, d.slots_len, d.labels, d.labels_len).number) \
    ROW(card_reader_copy, YES, IMAGE, card_reader_copy(IMG, d.b).number) \
    ROW(card_reader_count, YES, IMAGE, card_reader_count(IMG, d.b).number) \
    ROW(card_reader_next, YES, IMAGE, card_reader_next(IMG, d.b, d.after).number) \
    ROW(card_reader_slot, YES, IMAGE, card_reader_slot(IMG, d.b, d.slot).number) \
    ROW(card_reader_list, YES, IMAGE | OUT, card_reader_list(IMG, d.b, d.out, d.out_len).number) \
    ROW(card_start_put, YES, IMAGE | WRITES, card_start_put(IMG, d.b, d.slot, d.partition).number) \
    ROW(card_start_clear, YES, IMAGE | WRITES, card_start_clear(IMG, d.b, d.slot).number) \
    ROW(card_next_stage, YES, IMAGE | WRITES, card_next_stage(IMG, d.b, d.stage, d.update).number) \
    ROW(card_start_repair, YES, IMAGE | WRITES, card_start_repair(IMG, d.b).number) \
    ROW(card_next_repair, YES, IMAGE | WRITES, card_next_repair(IMG, d.b, d.repair.next, d.repair).number) \
    ROW(card_window_lay, YES, WINDOWS | WRITES, card_window_lay(WIN, d.guid).number) \
    ROW(card_window_check, YES, WINDOWS, card_window_check(WIN).number) \
    ROW(card_window_put, YES, WINDOWS | WRITES, card_window_put(WIN, d.slot, d.partition).number) \
    ROW(card_window_clear, YES, WINDOWS | WRITES, card_window_clear(WIN, d.slot).number) \
    ROW(card_window_count_used, YES, WINDOWS, card_window_count_used(WIN).number) \
    ROW(card_window_next_used, YES, WINDOWS, card_window_next_used(WIN, d.after).number) \
    ROW(card_window_read_slot, YES, WINDOWS, card_window_read_slot(WIN, d.slot).number) \
    ROW(card_window_nth_used, YES, WINDOWS, card_window_nth_used(WIN, d.after).number) \
    ROW(card_window_list, YES, WINDOWS | OUT, card_window_list(WIN, d.out, d.out_len).number) \
    ROW(card_window_free_runs, YES, WINDOWS | RUNS, card_window_free_runs(WIN, ROWS).number) \
    ROW(card_window_map_make, YES, WINDOWS, card_window_map_make(WIN).number) \
    ROW(card_window_reader_copy, YES, WINDOWS, card_window_reader_copy(WIN).number) \
    ROW(card_window_reader_count, YES, WINDOWS, card_window_reader_count(WIN).number) \
    ROW(card_window_reader_next, YES, WINDOWS, card_window_reader_next(WIN, d.after).number) \
    ROW(card_window_reader_slot, YES, WINDOWS, card_window_reader_slot(WIN, d.slot).number) \
    ROW(card_window_reader_list, YES, WINDOWS | OUT, card_window_reader_list(WIN, d.out, d.out_len).number) \
    ROW(card_window_start_put, YES, WINDOWS | WRITES, card_window_start_put(WIN, d.slot, d.partition).number) \
    ROW(card_window_start_clear, YES, WINDOWS | WRITES, card_window_start_clear(WIN, d.slot).number) \
    ROW(card_window_next_stage, YES, WINDOWS | WRITES, card_window_next_stage(WIN, d.stage, d.update).number) \
    ROW(card_window_start_repair, YES, WINDOWS | WRITES, card_window_start_repair(WIN).number) \
    ROW(card_window_next_repair, YES, WINDOWS | WRITES, card_window_next_repair(WIN, d.repair.next, d.repair).number) \
    ROW(card_payload_place, YES, IMAGE, card_payload_place(IMG, d.b, d.slot, d.place, d.count).number) \
    ROW(card_window_payload_place, YES, WINDOWS, card_window_payload_place(WIN, d.slot, d.place, d.count).number) \
    ROW(card_read_payload, YES, IMAGE | OUT, card_read_payload(IMG, d.b, d.slot, d.place, d.out, d.out_len).number) \
    ROW(gpt_crc32, NO, BYTES, gpt_crc32(d.bytes, d.bytes_len) == sum(d.bytes, d.bytes_len) ? 0 : UINT64_MAX) \
    ROW(gpt_crc32_next, NO, BYTES, gpt_crc32_next(0, d.bytes, d.bytes_len) == sum(d.bytes, d.bytes_len) ? 0 : UINT64_MAX) \
    ROW(gpt_read_primary_header, YES, IMAGE, gpt_read_primary_header(IMG, d.b).number) \
    ROW(gpt_read_backup_header, YES, IMAGE, gpt_read_backup_header(IMG, d.b).number) \
    ROW(gpt_find_backup_lba, YES, 0, gpt_find_backup_lba(d.any, d.b).number) \
    ROW(gpt_partentry_checksum, YES, IMAGE, gpt_partentry_checksum(IMG, d.header, d.b).number) \
    ROW(gpt_slot_sum, YES, PAIR, gpt_slot_sum(d.any32, d.was, d.was_len, d.is, d.is_len, d.count).number) \
    ROW(gpt_write_primary, YES, IMAGE | WRITES, gpt_write_primary(IMG, d.header, d.b).number) \
    ROW(gpt_write_backup, YES, IMAGE | WRITES, gpt_write_backup(IMG, d.header, d.b).number) \
    ROW(gpt_settings_new, NO, 0, gpt_settings_new(d.guid).num_parts == 128 ? 0 : UINT64_MAX) \
    ROW(gpt_build, YES, 0, gpt_build(d.settings, d.b).number) \
    ROW(gpt_build_from_header, YES, 0, gpt_build_from_header(d.header, d.b).number) \
    ROW(gpt_flags_of, NO, 0, gpt_flags_of(d.any).owner == d.any >> 48 ? 0 : UINT64_MAX) \
    ROW(gpt_flags_bits, YES, 0, gpt_flags_bits(d.flags).number) \
    ROW(gpt_entry_from_bytes, YES, BYTES, gpt_entry_from_bytes(d.bytes, d.bytes_len).number) \
    ROW(gpt_entry_to_bytes, YES, OUT, gpt_entry_to_bytes(d.out, d.out_len, d.partition)) \
    ROW(gpt_is_used, NO, 0, gpt_is_used(d.partition) == (memcmp(&d.partition.part_type_guid, &(gpt_guid){0}, 16) != 0) ? 0 : UINT64_MAX) \
    ROW(gpt_sectors_len, YES, 0, gpt_sectors_len(d.partition).number) \
    ROW(gpt_bytes_len, YES, 0, gpt_bytes_len(d.partition, d.b).number) \
    ROW(gpt_bytes_start, YES, 0, gpt_bytes_start(d.partition, d.b).number) \
    ROW(gpt_write_entry, YES, IMAGE | WRITES, gpt_write_entry(IMG, d.partition, d.index, d.start, d.b, d.entry_size).number) \
    ROW(gpt_write_zero_entries, YES, IMAGE | WRITES, gpt_write_zero_entries(IMG, d.index, d.count, d.start, d.b, d.entry_size).number) \
    ROW(gpt_read_partition, YES, IMAGE, gpt_read_partition(IMG, d.header, d.b, d.slot).number) \
    ROW(gpt_count_partitions, YES, IMAGE, gpt_count_partitions(IMG, d.header, d.b).number) \
    ROW(gpt_next_partition, YES, IMAGE, gpt_next_partition(IMG, d.header, d.b, d.after).number) \
    ROW(gpt_file_read_partitions, YES, IMAGE | OUT, gpt_file_read_partitions(IMG, d.header, d.b, d.out, d.out_len).number) \
    ROW(gpt_uefi_read_primary_header, YES, IMAGE, gpt_uefi_read_primary_header(IMG, d.b).number) \
    ROW(gpt_uefi_read_backup_header, YES, IMAGE, gpt_uefi_read_backup_header(IMG, d.b).number) \
    ROW(gpt_uefi_read_partition, YES, IMAGE, gpt_uefi_read_partition(IMG, d.header, d.b, d.slot).number) \
    ROW(gpt_uefi_count_partitions, YES, IMAGE, gpt_uefi_count_partitions(IMG, d.header, d.b).number) \
    ROW(gpt_uefi_next_partition, YES, IMAGE, gpt_uefi_next_partition(IMG, d.header, d.b, d.after).number) \
    ROW(gpt_uefi_file_read_partitions, YES, IMAGE | OUT, gpt_uefi_file_read_partitions(IMG, d.header, d.b, d.out, d.out_len).number) \
    ROW(gpt_uefi_count_primary, YES, IMAGE, gpt_uefi_count_primary(IMG, d.b).number) \
    ROW(gpt_uefi_count_backup, YES, IMAGE, gpt_uefi_count_backup(IMG, d.b).number) \
    ROW(gpt_uefi_list_primary, YES, IMAGE | OUT, gpt_uefi_list_primary(IMG, d.b, d.out, d.out_len).number) \
    ROW(gpt_uefi_list_backup, YES, IMAGE | OUT, gpt_uefi_list_backup(IMG, d.b, d.out, d.out_len).number) \
    ROW(gpt_mbr_new, NO, 0, gpt_mbr_new(d.any32).partitions[0].os_type == 0xEE ? 0 : UINT64_MAX) \
    ROW(gpt_mbr_protective_record, NO, 0, gpt_mbr_protective_record(d.any32).os_type == 0xEE ? 0 : UINT64_MAX) \
    ROW(gpt_mbr_from_bytes, YES, BYTES, gpt_mbr_from_bytes(d.bytes, d.bytes_len, d.b).number) \
    ROW(gpt_mbr_from_image, YES, IMAGE, gpt_mbr_from_image(IMG, d.b).number) \
    ROW(gpt_mbr_record_from_bytes, YES, BYTES, gpt_mbr_record_from_bytes(d.bytes, d.bytes_len).number) \
    ROW(gpt_mbr_record_to_bytes, NO, 0, gpt_mbr_record_to_bytes(d.part_record).bytes[4] == d.part_record.os_type ? 0 : UINT64_MAX) \
    ROW(gpt_mbr_to_bytes, NO, 0, gpt_mbr_to_bytes(d.mbr).bytes[511] == 0xAA ? 0 : UINT64_MAX) \
    ROW(gpt_mbr_record, YES, 0, gpt_mbr_record(d.mbr, d.any).number) \
    ROW(gpt_mbr_set_record, YES, 0, gpt_mbr_set_record(d.mbr, d.any, d.part_record).number) \
    ROW(gpt_mbr_overwrite, YES, IMAGE | WRITES, gpt_mbr_overwrite(IMG, d.mbr).number) \
    ROW(gpt_mbr_update_conservative, YES, IMAGE | WRITES, gpt_mbr_update_conservative(IMG, d.mbr).number) \
    ROW(gpt_mbr_read_bootcode, YES, IMAGE, gpt_mbr_read_bootcode(IMG).number) \
    ROW(gpt_mbr_write_bootcode, YES, IMAGE | WRITES, gpt_mbr_write_bootcode(IMG, d.bootcode).number) \
    ROW(gpt_mbr_read_disk_signature, YES, IMAGE, gpt_mbr_read_disk_signature(IMG).number) \
    ROW(gpt_mbr_write_disk_signature, YES, IMAGE | WRITES, gpt_mbr_write_disk_signature(IMG, d.signature).number) \
    ROW(card_version, NO, 0, card_version().major == 0 ? 0 : UINT64_MAX) \
    ROW(card_message, YES, SHORT, card_message(TO, (uint32_t)below(45), (uint32_t)below(6), d.slot).number) \
    ROW(gpt_guid_to_text, YES, SHORT, gpt_guid_to_text(TO, d.guid).number) \
    ROW(gpt_guid_from_text, YES, GUID, gpt_guid_from_text(d.text, d.text_len).number) \
    ROW(gpt_name_to_utf8, YES, SHORT | UNITS, gpt_name_to_utf8(TO, d.units, d.units_len).number) \
    ROW(gpt_name_from_utf8, YES, UTF8, gpt_name_from_utf8(d.text, d.text_len).number)

#define CALL(name, refuses, lends, number) static uint64_t call_##name(void) { return number; }
EXPORTS(CALL)

typedef struct export {
    const char *name;
    bool refuses;
    unsigned lends;
    uint64_t (*call)(void);
    uint64_t accepted, refused;
} export;

#define EXPORT(name, refuses, lends, number) {#name, refuses, lends, call_##name, 0, 0},
static export exports[] = {EXPORTS(EXPORT)};
#define EXPORTS_N (sizeof exports / sizeof *exports)

/* ---- the run */

static uint64_t seed, number_of_call;
static const char *in_hand = "no call";

/* Tells a fault. The call in hand holds no lock of the C library, so that printing is safe here. */
static void fault(int signal, siginfo_t *info, void *context) {
    (void)signal, (void)context;
    printf("guard: %s, seed %" PRIu64 ", call %" PRIu64 ": a fault at %p", in_hand, seed, number_of_call, info->si_addr);
    for (unsigned k = 0; k < lent; k++) {
        const slice *s = &slices[k];
        const uint8_t *at = (s->writes ? pieces[k].writable : pieces[k].readable) + s->from;
        printf("; slice %u is %zu bytes%s at %p", k + 1, s->len, s->writes ? "" : " to be read", (const void *)at);
    }
    printf("\n");
    fflush(stdout);
    _exit(1);
}

static void catch_faults(void) {
    static uint8_t stack[1 << 16];
    stack_t other = {.ss_sp = stack, .ss_size = sizeof stack};
    struct sigaction action = {.sa_sigaction = fault, .sa_flags = SA_SIGINFO | SA_ONSTACK};
    if (sigaltstack(&other, NULL) != 0 || sigaction(SIGSEGV, &action, NULL) != 0 || sigaction(SIGBUS, &action, NULL) != 0) die("no handler of faults");
}

static void make_call(uint64_t k) {
    export *e = &exports[k % EXPORTS_N];
    number_of_call = k;
    in_hand = e->name;
    turn = k / EXPORTS_N;
    state = seed + k * 0xD1B54A32D192ED03;
    draw_card();
    draw_numbers();
    lend_all(e->lends);
    last_number = e->lends & (GUID | UTF8) ? CARD_LONG_NAME : CARD_EMPTY_LIST;
    uint64_t number = e->call();
    const char *what = wrong_after(number);
    if (what || (number != 0 && !e->refuses)) {
        printf("guard: %s, seed %" PRIu64 ", call %" PRIu64 ", number %" PRIu64 ": %s\n", e->name, seed, k, number, what ? what : "it does not refuse");
        exit(EXIT_FAILURE);
    }
    number == 0 ? e->accepted++ : e->refused++;
}

/* ---- that this program can fail: wrong calls, each in a child of its own */

static void read_past(void) { (void)gpt_crc32(lend(card, 100, false), 101); }
static void read_before(void) { (void)gpt_crc32((uint8_t *)lend(card, 100, false) - 1, 101); }
static void read_past_nothing(void) { (void)gpt_crc32(lend(card, 0, false), 1); }
static void write_past(void) { (void)card_lay(lend(card, 68 * 512 - 1, true), 68 * 512, 512, d.guid); }
static void write_const(void) { (void)card_lay(lend(card, 68 * 512, false), 68 * 512, 512, d.guid); }
static void write_past_row(void) { (void)card_free_runs(bases[0].bytes, bases[0].len, 512, lend(card, 0, true), 1, lend(card, 8, true), 1); }

/* How a child ends that makes a wrong call: by its signal, or, where the handler is to tell the fault, with the handler's exit status. What is told stands in the file. */
static int ended(void (*wrong)(void), uint64_t in_turn, FILE *told) {
    fflush(stdout);
    pid_t child = fork();
    if (child < 0) die("no child process");
    if (child == 0) {
        setrlimit(RLIMIT_CORE, &(struct rlimit){0, 0});
        if (told) catch_faults();
        if (told && dup2(fileno(told), 1) < 0) _exit(9);
        lent = 0, turn = in_turn, in_hand = "gpt_crc32";
        wrong();
        _exit(0);
    }
    int status;
    if (waitpid(child, &status, 0) != child) die("no end of a child process");
    return WIFSIGNALED(status) ? WTERMSIG(status) : 1000 + WEXITSTATUS(status);
}

/* The handler names the export, the seed and the call. */
static void test_of_the_handler(void) {
    char wanted[100], line[100] = "";
    FILE *told = tmpfile();
    if (!told) die("no file for what a child tells");
    number_of_call = 7;
    if (ended(read_past, 0, told) != 1001) die("a fault is not told");
    rewind(told);
    snprintf(wanted, sizeof wanted, "guard: gpt_crc32, seed %" PRIu64 ", call 7: a fault at ", seed);
    if (!fgets(line, sizeof line, told) || strncmp(line, wanted, strlen(wanted)) != 0) die("a fault is told wrongly");
    fclose(told);
}

static void self_test(void) {
    if (ended(read_past, 0, NULL) != SIGSEGV) die("a byte read past a slice is no fault");
    if (ended(read_before, 1, NULL) != SIGSEGV) die("a byte read before a slice is no fault");
    if (ended(read_past_nothing, 0, NULL) != SIGSEGV) die("a byte read of an empty slice is no fault");
    if (ended(write_past, 0, NULL) != SIGSEGV) die("a byte written past a slice is no fault");
    if (ended(write_const, 0, NULL) != SIGSEGV) die("a write to a const slice is no fault");
    if (ended(write_past_row, 0, NULL) != SIGSEGV) die("a number written past a row is no fault");
    test_of_the_handler();
    lent = 0, turn = 1;
    uint8_t *at = lend(card, 100, true);
    if (wrong_after(1) || !wrong_after(last_number + 1)) die("a number is taken wrongly");
    at[99] ^= 1;
    if (wrong_after(0) || !wrong_after(1)) die("a byte that a refused call changes is not seen");
    at[99] ^= 1, at[100] ^= 1;
    if (!wrong_after(0)) die("a byte changed beside a slice is not seen");
}

static void tell(uint64_t calls, uint64_t first) {
    uint64_t accepted = 0, refused = 0;
    bool missing = false;
    for (size_t k = 0; k < EXPORTS_N; k++) {
        const export *e = &exports[k];
        printf("%s: %" PRIu64 " accepted, %" PRIu64 " refused\n", e->name, e->accepted, e->refused);
        accepted += e->accepted;
        refused += e->refused;
        missing = missing || !e->accepted || (e->refuses && !e->refused);
    }
    if (missing && calls >= 500 * EXPORTS_N) die("a call was never accepted, or never refused");
    printf("guard: %" PRIu64 " calls of %zu exports%s, %" PRIu64 " accepted, %" PRIu64 " refused, no byte outside was touched\n", calls, EXPORTS_N, first ? ", not from the first" : "", accepted, refused);
}

int main(int n, char **words) {
    if (n == 2 && strcmp(words[1], "names") == 0) {
        for (size_t k = 0; k < EXPORTS_N; k++) puts(exports[k].name);
        return 0;
    }
    uint64_t calls = n > 2 ? strtoull(words[2], NULL, 0) : 200000, first = n > 3 ? strtoull(words[3], NULL, 0) : 0;
    seed = n > 1 ? strtoull(words[1], NULL, 0) : 1;
    printf("guard: seed %" PRIu64 "\n", seed);
    make_pieces();
    state = 20;
    make_bases();
    self_test();
    catch_faults();
    for (uint64_t k = first; k < first + calls; k++) make_call(k);
    tell(calls, first);
    return 0;
}
