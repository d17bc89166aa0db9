// Measures the card calls on images in memory, in one run: both block sizes, 1 and 120 used slots, images of 1 MiB and 64 MiB; and 120 used slots whose partition
// GUIDs all have one number in the set by which twins are found. Each time is the median of many samples. Then it says how much stack each call takes, by painting a thread's stack and looking for what was overwritten.
#include <pthread.h>
#include <stdbool.h>
#include <stdint.h>
#include <stdio.h>
#include <stdlib.h>
#include <string.h>
#include <time.h>
#include "card.h"

enum { SAMPLES = 301, CALLS = 16, ARRAY = 16384, PAYLOAD = 4096, STACK = 1 << 20 };

static uint8_t *img;
static size_t len;
static uint64_t block;
static uint32_t used_slots;
static bool alike;
static uint8_t payload[PAYLOAD];
static uint8_t noise[ARRAY];
static card_row rows[128];
static volatile uint64_t sink;

static double now_ns(void) {
    struct timespec t;
    clock_gettime(CLOCK_MONOTONIC, &t);
    return t.tv_sec * 1e9 + t.tv_nsec;
}

static int by_size(const void *a, const void *b) {
    double x = *(const double *)a, y = *(const double *)b;
    return (x > y) - (x < y);
}

// Slot s has PAYLOAD bytes, right after slot s - 1. Where the GUIDs are to be alike, both halves of each are the same: then the number of each is 0.
static gpt_partition record(uint32_t s) {
    gpt_partition p = {.part_type_guid = {.time_low = 0xEBD0A0A2}, .part_guid = {.time_low = s}, .name = {'m', 'a', 'p'}};
    if (alike) memcpy(p.part_guid.tail, &p.part_guid, sizeof p.part_guid.tail);
    uint64_t blocks = PAYLOAD / block;
    p.first_lba = 2 + ARRAY / block + (s - 1) * blocks;
    p.last_lba = p.first_lba + blocks - 1;
    return p;
}

static void must(uint32_t number, const char *what) {
    if (number != 0) {
        fprintf(stderr, "bench: %s was refused by %u\n", what, number);
        exit(1);
    }
}

// What the machine's clock is read by: random bytes, since the sum of a card's own array goes over its zeros.
static uint64_t do_sum(void) { return gpt_crc32(noise, ARRAY); }
static uint64_t do_check(void) { return card_check(img, len, block).number; }
static uint64_t do_put(void) { return card_put(img, len, block, used_slots, record(used_slots)).number; }
static uint64_t do_clear(void) { return card_clear(img, len, block, 128).number; }
static uint64_t do_payload(void) { return card_write_payload(img, len, block, 1, 0, payload, PAYLOAD).number; }
static uint64_t do_list(void) { return card_list(img, len, block, (uint8_t *)rows, sizeof rows).number; }
static uint64_t do_lay(void) { return card_lay(img, len, block, (gpt_guid){.time_low = 1}).number; }

typedef uint64_t (*call_fn)(void);
static const struct { const char *name; call_fn call; } calls[] = {
    {"sum of 16 KiB", do_sum}, {"check", do_check}, {"put", do_put}, {"clear", do_clear}, {"payload 4 KiB", do_payload}, {"listing", do_list},
};
enum { KINDS = sizeof calls / sizeof calls[0] };

static void prepare(size_t bytes, uint64_t b, uint32_t used) {
    len = bytes;
    block = b;
    used_slots = used;
    must((uint32_t)do_lay(), "lay");
    for (uint32_t s = 1; s <= used; s++) must(card_put(img, len, block, s, record(s)).number, "put");
    for (int k = 1; k < KINDS; k++) must((uint32_t)calls[k].call(), calls[k].name);
}

static void measure(double out[KINDS]) {
    static double t[KINDS][SAMPLES];
    for (int s = 0; s < SAMPLES; s++)
        for (int k = 0; k < KINDS; k++) {
            uint64_t all = 0;
            double from = now_ns();
            for (int i = 0; i < CALLS; i++) all += calls[k].call();
            t[k][s] = (now_ns() - from) / CALLS;
            sink = all;
        }
    for (int k = 0; k < KINDS; k++) {
        qsort(t[k], SAMPLES, sizeof(double), by_size);
        out[k] = t[k][SAMPLES / 2];
    }
}

static void *on_stack(void *f) {
    sink = (*(call_fn *)f)();
    return NULL;
}

static uint64_t do_nothing(void) { return 0; }

static size_t stack_of(call_fn f) {
    static uint8_t *stack;
    if (!stack && posix_memalign((void **)&stack, 4096, STACK)) exit(1);
    memset(stack, 0xA5, STACK);
    pthread_attr_t attr;
    pthread_attr_init(&attr);
    if (pthread_attr_setstack(&attr, stack, STACK)) exit(1);
    pthread_t id;
    if (pthread_create(&id, &attr, on_stack, &f)) exit(1);
    pthread_join(id, NULL);
    size_t free_bytes = 0;
    while (free_bytes < STACK && stack[free_bytes] == 0xA5) free_bytes++;
    return STACK - free_bytes;
}

static void row(size_t bytes, uint64_t b, uint32_t used, const char *note) {
    double t[KINDS];
    prepare(bytes, b, used);
    measure(t);
    printf("%2zu MiB %6llu %5u", bytes >> 20, (unsigned long long)b, used);
    for (int k = 0; k < KINDS; k++) printf(" %14.2f", t[k] / 1000);
    printf("%s\n", note);
}

int main(void) {
    static const size_t sizes[] = {1 << 20, 64 << 20};
    static const uint64_t blocks[] = {512, 4096};
    static const uint32_t used[] = {1, 120};
    img = calloc(64 << 20, 1);
    if (!img) return 1;
    srand(1);
    for (size_t i = 0; i < sizeof noise; i++) noise[i] = (uint8_t)(rand() >> 7);
    printf("microseconds a call, median of %d samples of %d calls\n%6s %6s %5s", SAMPLES, CALLS, "image", "block", "used");
    for (int k = 0; k < KINDS; k++) printf(" %14s", calls[k].name);
    printf("\n");
    for (int i = 0; i < 2; i++)
        for (int j = 0; j < 2; j++)
            for (int u = 0; u < 2; u++) row(sizes[i], blocks[j], used[u], "");
    alike = true;
    row(1 << 20, 512, 120, "  all GUIDs of one number");
    alike = false;
    prepare(1 << 20, 512, 120);
    size_t none = stack_of(do_nothing);
    printf("\nbytes of stack, beside the %zu of a thread that calls nothing\n", none);
    for (int k = 1; k < KINDS; k++) printf("%14s %6zu\n", calls[k].name, stack_of(calls[k].call) - none);
    printf("%14s %6zu\n", "lay", stack_of(do_lay) - none);
    return 0;
}
