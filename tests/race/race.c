/* A second writer during a call: card.h forbids it, and yet a call must then neither read nor store a byte outside what was lent to it. One thread
   changes the table between two good cards, and single fields of a slot, while another makes calls. The image and the lent row lie between pages that
   cannot be touched: once with their ends at such a page, once with their starts. Each kind of call runs in a process of its own, so that each fault is
   told. Usage: race [SECONDS [CALL]], for 10 seconds in all and for each call. It prints the number of calls of each kind; its exit status is 1 after
   a fault, after a call that does not return, and after a byte changed beside the image or the row. A fault at 0 is one at an address so far off that the
   system does not tell it. */
#define _GNU_SOURCE
#include "card.h"
#include <pthread.h>
#include <signal.h>
#include <stdatomic.h>
#include <stdio.h>
#include <stdlib.h>
#include <string.h>
#include <sys/mman.h>
#include <sys/wait.h>
#include <time.h>
#include <unistd.h>

#define BLOCK 512
#define BLOCKS 201
#define LEN (BLOCKS * BLOCK)
#define TABLE (33 * BLOCK)
#define FIRST 34
#define LAST (BLOCKS - 34)
#define FEW 3
#define SLOTS 128
#define PAGE 4096
#define GUARD (1 << 20)
#define PAINT 0x5A

/* A piece of memory between two guards. What is lent lies at its start or at its end; the rest of it is painted. */
typedef struct piece {
    uint8_t *start;
    size_t size;
    bool at_end;
} piece;

/* What the child tells its parent. */
typedef struct report {
    _Atomic uint64_t calls, accepted;
    _Atomic bool faulted;
    _Atomic intptr_t fault_place;
} report;

static piece image_piece, row_piece;
static uint8_t *image;
static uint8_t few[LEN], full[LEN];
static gpt_header few_header, full_header;
static const uint8_t bytes[BLOCK] = {1, 2, 3};
static report *told;
static atomic_bool stop;

static void die(const char *what) {
    perror(what);
    exit(EXIT_FAILURE);
}

/* A generator of random numbers: SplitMix64. Each thread has a state of its own. */
static uint64_t dice(uint64_t *state) {
    uint64_t x = *state += 0x9E3779B97F4A7C15;
    x = (x ^ x >> 30) * 0xBF58476D1CE4E5B9;
    x = (x ^ x >> 27) * 0x94D049BB133111EB;
    return x ^ x >> 31;
}

static piece guarded(size_t len, bool at_end) {
    size_t size = (len + PAGE - 1) / PAGE * PAGE;
    uint8_t *all = mmap(NULL, size + 2 * GUARD, PROT_NONE, MAP_PRIVATE | MAP_ANONYMOUS | MAP_NORESERVE, -1, 0);
    if (all == MAP_FAILED || mprotect(all + GUARD, size, PROT_READ | PROT_WRITE) != 0) die("race: no memory between guards");
    memset(all + GUARD, PAINT, size);
    return (piece){all + GUARD, size, at_end};
}

/* Where so many bytes of a piece are lent. */
static uint8_t *lent(piece p, size_t len) { return p.at_end ? p.start + p.size - len : p.start; }

/* Whether the rest of a piece is still painted. */
static bool painted(piece p, size_t len) {
    uint8_t *from = p.at_end ? p.start : p.start + len;
    for (size_t i = 0; i < p.size - len; i++)
        if (from[i] != PAINT) return false;
    return true;
}

static gpt_partition map(uint64_t first, uint64_t last) {
    return (gpt_partition){.part_type_guid = {1, 2, 3, {4}}, .part_guid = {(uint32_t)first, 6, 7, {8}}, .first_lba = first, .last_lba = last};
}

/* Two good cards. In one, slot 1 has nearly all blocks, and two more slots are used. In the other, each of the 128 slots has one block, and slot 1 the last. */
static void prepare(void) {
    const gpt_guid disk = {5, 6, 7, {8}};
    uint32_t refused = card_lay(few, LEN, BLOCK, disk).number + card_lay(full, LEN, BLOCK, disk).number;
    refused += card_put(few, LEN, BLOCK, 1, map(FIRST, LAST - 2)).number;
    refused += card_put(few, LEN, BLOCK, 64, map(LAST - 1, LAST - 1)).number;
    refused += card_put(few, LEN, BLOCK, 128, map(LAST, LAST)).number;
    for (uint32_t slot = 1; slot <= SLOTS; slot++) refused += card_put(full, LEN, BLOCK, slot, map(LAST + 1 - slot, LAST + 1 - slot)).number;
    few_header = gpt_read_primary_header(few, LEN, BLOCK).header;
    full_header = gpt_read_primary_header(full, LEN, BLOCK).header;
    if (refused == 0) return;
    printf("race: the cards were not made\n");
    exit(EXIT_FAILURE);
}

/* Slot 1 for the most part, then the others that both cards use. */
static uint32_t some_slot(uint64_t *state) {
    static const uint32_t often[] = {1, 1, 1, 1, 64, 128};
    uint64_t n = dice(state) % 8;
    return n < 6 ? often[n] : (uint32_t)(1 + dice(state) % SLOTS);
}

/* ---- the thread that writes */

static void wait_some(uint64_t turns) {
    for (uint64_t i = 0; i < turns; i++) __asm__ volatile("" ::: "memory");
}

/* Both tables of a card over those of the image. */
static void copy_tables(const uint8_t *card) {
    memcpy(image + BLOCK, card + BLOCK, TABLE);
    memcpy(image + LEN - TABLE, card + LEN - TABLE, TABLE);
}

/* What a slot becomes for a moment: empty, of no type, with another first or last block, all ones, or as the other card has it. */
static void spoil(uint8_t slot[128], const uint8_t *other, uint64_t *state) {
    static const uint64_t odd[] = {0, 1, LAST, BLOCKS - 1, BLOCKS, 2 * BLOCKS, 1ULL << 32, 1ULL << 55, UINT64_MAX};
    uint64_t value = odd[dice(state) % (sizeof odd / sizeof odd[0])];
    switch (dice(state) % 8) {
    case 0: memset(slot, 0, 16); break;
    case 1: memset(slot, 0xFF, 128); break;
    case 2: memcpy(slot + 40, &value, 8); break;
    case 3: memcpy(slot + 32, &value, 8); break;
    case 4:
    case 5: memset(slot, 0, 128); break;
    default: memcpy(slot, other, 128); break;
    }
}

/* One slot flickers between what a card has there and something else, in the front table or in both. */
static void flicker(const uint8_t *card, const uint8_t *other, uint64_t *state) {
    size_t place = (some_slot(state) - 1) * 128;
    const uint8_t *good = card + 2 * BLOCK + place;
    uint8_t *front = image + 2 * BLOCK + place, *back = image + LEN - TABLE + place, bad[128];
    uint64_t longest = 100 << dice(state) % 5;
    bool both = dice(state) % 2;
    memcpy(bad, good, 128);
    spoil(bad, other + 2 * BLOCK + place, state);
    for (uint64_t n = 1 + dice(state) % 200; n > 0; n--) {
        memcpy(front, bad, 128);
        if (both) memcpy(back, bad, 128);
        wait_some(1 + dice(state) % 100);
        memcpy(front, good, 128);
        if (both) memcpy(back, good, 128);
        wait_some(1 + dice(state) % longest);
    }
}

static void *writes(void *unused) {
    uint64_t state = 1;
    while (!atomic_load(&stop)) {
        bool first = dice(&state) % 2;
        copy_tables(first ? few : full);
        wait_some(dice(&state) % 5000);
        for (uint64_t n = dice(&state) % 4; n > 0; n--) {
            flicker(first ? few : full, first ? full : few, &state);
            wait_some(dice(&state) % 3000);
        }
    }
    return unused;
}

/* ---- the thread that calls */

static uint32_t do_check(uint64_t *unused) {
    (void)unused;
    return card_check(image, LEN, BLOCK).number;
}

static uint32_t do_put(uint64_t *state) {
    uint64_t block = FIRST + dice(state) % (LAST - FIRST + 1);
    return card_put(image, LEN, BLOCK, some_slot(state), map(block, block)).number;
}

static uint32_t do_clear(uint64_t *state) { return card_clear(image, LEN, BLOCK, some_slot(state)).number; }

static uint32_t do_payload(uint64_t *state) {
    size_t most = (size_t)(LAST - 1 - FIRST) * BLOCK, len = 1 + dice(state) % BLOCK;
    size_t place = dice(state) % 4 ? most - len : dice(state) % most;
    return card_write_payload(image, LEN, BLOCK, 1, place, bytes, len).number;
}

static uint32_t do_count(uint64_t *unused) {
    (void)unused;
    return card_count_used(image, LEN, BLOCK).number;
}

static uint32_t do_next(uint64_t *state) { return card_next_used(image, LEN, BLOCK, (uint32_t)(dice(state) % 129)).number; }
static uint32_t do_read(uint64_t *state) { return card_read_slot(image, LEN, BLOCK, some_slot(state)).number; }
static uint32_t do_nth(uint64_t *state) { return card_nth_used(image, LEN, BLOCK, (uint32_t)(dice(state) % 4 ? dice(state) % SLOTS : 2)).number; }

static size_t some_rows(uint64_t *state) { return sizeof(card_row) * (dice(state) % 2 ? FEW : SLOTS); }

static uint32_t do_list(uint64_t *state) {
    size_t len = some_rows(state);
    return card_list(image, LEN, BLOCK, lent(row_piece, len), len).number;
}

/* Both rows end where the guarded bytes do. */
static uint32_t do_free_runs(uint64_t *state) {
    size_t n = dice(state) % 2 ? 2 : CARD_RUNS;
    uint64_t *rows = (uint64_t *)(void *)lent(row_piece, 2 * n * sizeof(uint64_t));
    return card_free_runs(image, LEN, BLOCK, rows, n, rows + n, n).number;
}

static const gpt_header *some_header(uint64_t *state) { return dice(state) % 2 ? &few_header : &full_header; }

static uint32_t do_array_rows(uint64_t *state) {
    size_t len = some_rows(state);
    return gpt_file_read_partitions(image, LEN, *some_header(state), BLOCK, lent(row_piece, len), len).number;
}

static uint32_t do_array_count(uint64_t *state) { return gpt_count_partitions(image, LEN, *some_header(state), BLOCK).number; }
static uint32_t do_array_next(uint64_t *state) { return gpt_next_partition(image, LEN, *some_header(state), BLOCK, some_slot(state)).number; }
static uint32_t do_array_read(uint64_t *state) { return gpt_read_partition(image, LEN, *some_header(state), BLOCK, some_slot(state)).number; }
static uint32_t do_write_header(uint64_t *state) { return gpt_write_primary(image, LEN, *some_header(state), BLOCK).number; }

typedef struct kind {
    const char *name;
    uint32_t (*call)(uint64_t *state);
} kind;
static const kind kinds[] = {
    {"card_write_payload", do_payload},
    {"card_list", do_list},
    {"card_free_runs", do_free_runs},
    {"card_put", do_put},
    {"card_clear", do_clear},
    {"card_check", do_check},
    {"card_count_used", do_count},
    {"card_next_used", do_next},
    {"card_nth_used", do_nth},
    {"card_read_slot", do_read},
    {"gpt_file_read_partitions", do_array_rows},
    {"gpt_count_partitions", do_array_count},
    {"gpt_next_partition", do_array_next},
    {"gpt_read_partition", do_array_read},
    {"gpt_write_primary", do_write_header},
};
enum { KINDS = sizeof kinds / sizeof kinds[0] };

static void faulted(int signal, siginfo_t *info, void *unused) {
    (void)signal, (void)unused;
    atomic_store(&told->fault_place, (intptr_t)info->si_addr);
    atomic_store(&told->faulted, true);
    _exit(EXIT_FAILURE);
}

static double now(void) {
    struct timespec t;
    clock_gettime(CLOCK_MONOTONIC, &t);
    return (double)t.tv_sec + (double)t.tv_nsec / 1e9;
}

/* The child: one kind of call beside the thread that writes. */
static int calls(const kind *k, double seconds) {
    struct sigaction action = {.sa_sigaction = faulted, .sa_flags = SA_SIGINFO};
    sigaction(SIGSEGV, &action, NULL);
    sigaction(SIGBUS, &action, NULL);
    alarm((unsigned)seconds + 20);
    pthread_t writer;
    if (pthread_create(&writer, NULL, writes, NULL) != 0) die("race: no thread");
    uint64_t state = 2;
    for (double end = now() + seconds; now() < end;)
        for (int i = 0; i < 16; i++) {
            uint32_t number = k->call(&state);
            atomic_fetch_add(&told->calls, 1);
            if (number == 0) atomic_fetch_add(&told->accepted, 1);
        }
    atomic_store(&stop, true);
    pthread_join(writer, NULL);
    return painted(image_piece, LEN) && painted(row_piece, SLOTS * sizeof(card_row)) ? EXIT_SUCCESS : 2;
}

/* ---- the parent */

static void lend(bool at_end) {
    image_piece = guarded(LEN, at_end);
    row_piece = guarded(SLOTS * sizeof(card_row), at_end);
    image = lent(image_piece, LEN);
    memcpy(image, few, LEN);
    memset(lent(row_piece, SLOTS * sizeof(card_row)), 0, SLOTS * sizeof(card_row));
}

/* Whether one kind of call came through. */
static bool came_through(const kind *k, double seconds) {
    *told = (report){0};
    fflush(stdout);
    pid_t child = fork();
    if (child < 0) die("race: no process");
    if (child == 0) _exit(calls(k, seconds));
    int status = 0;
    waitpid(child, &status, 0);
    printf("%-24s %9llu calls, %9llu accepted, %s at the guard", k->name, (unsigned long long)told->calls, (unsigned long long)told->accepted,
           image_piece.at_end ? "end" : "start");
    if (told->faulted)
        printf(": FAULT at %#llx; the image is at %p, the row at %p", (unsigned long long)told->fault_place, (void *)image, (void *)row_piece.start);
    else if (WIFSIGNALED(status))
        printf(": %s", WTERMSIG(status) == SIGALRM ? "A CALL DOES NOT RETURN" : strsignal(WTERMSIG(status)));
    else if (WEXITSTATUS(status) != 0)
        printf(": A BYTE CHANGED beside the image or the row");
    printf("\n");
    return status == 0;
}

int main(int words, char **word) {
    double seconds = words > 1 ? atof(word[1]) : 10;
    int wrong = 0, ran = 0;
    told = mmap(NULL, sizeof *told, PROT_READ | PROT_WRITE, MAP_SHARED | MAP_ANONYMOUS, -1, 0);
    if (told == MAP_FAILED || seconds <= 0) die("race: SECONDS");
    prepare();
    double each = words > 2 ? seconds / 2 : seconds / (2 * KINDS);
    for (int at_end = 1; at_end >= 0; at_end--) {
        lend(at_end);
        for (int k = 0; k < KINDS; k++) {
            if (words > 2 && strcmp(word[2], kinds[k].name) != 0) continue;
            ran++;
            wrong += !came_through(&kinds[k], each);
        }
    }
    if (wrong != 0 || ran == 0) printf("race: %d of %d runs went wrong\n", wrong, ran);
    else printf("race: %d kinds of calls came through %g seconds of a second writer\n", ran / 2, seconds);
    return wrong != 0 || ran == 0 ? EXIT_FAILURE : EXIT_SUCCESS;
}
