// Measures the check sum beside a plain byte table and zlib, in one run and in turn, and first compares all answers: over random bytes, and over entry arrays with
// few and many used slots.
// Times are medians of many samples. The plain table is what a short C program would have: 256 entries, made once.
#include <stdint.h>
#include <stdio.h>
#include <stdlib.h>
#include <string.h>
#include <time.h>
#include <zlib.h>
#include "card.h"

uint32_t rt_header_sum(const uint8_t *p, size_t n);
uint32_t rt_header_sums(const uint8_t *p, size_t n, uint32_t times);

enum { HEADER = 92, ENTRY = 128, SLOTS = 128, SAMPLES = 101, ROOM = 1 << 20 };

static uint32_t byte_table[256];

static void make_table(void) {
    for (uint32_t k = 0; k < 256; k++) {
        uint32_t r = k;
        for (int bit = 0; bit < 8; bit++) r = (r >> 1) ^ ((r & 1) ? 0xEDB88320u : 0);
        byte_table[k] = r;
    }
}

static uint32_t plain_feed(uint32_t r, const uint8_t *p, size_t n) {
    for (size_t i = 0; i < n; i++) r = byte_table[(r ^ p[i]) & 255] ^ (r >> 8);
    return r;
}

__attribute__((noinline)) static uint32_t plain(const uint8_t *p, size_t n) { return ~plain_feed(~0u, p, n); }

__attribute__((noinline)) static uint32_t zlib_sum(const uint8_t *p, size_t n) { return (uint32_t)crc32(0, p, (uInt)n); }

// A header's sum: sixteen bytes, four of zero, and the 72 behind the field.
__attribute__((noinline)) static uint32_t plain_header(const uint8_t *p, size_t n) {
    static const uint8_t zeros[4];
    (void)n;
    return ~plain_feed(plain_feed(plain_feed(~0u, p, 16), zeros, 4), p + 20, HEADER - 20);
}

__attribute__((noinline)) static uint32_t zlib_header(const uint8_t *p, size_t n) {
    static const uint8_t zeros[4];
    (void)n;
    return (uint32_t)crc32(crc32(crc32(0, p, 16), zeros, 4), p + 20, HEADER - 20);
}

// A sum that goes on from block to block, each block by one call.
static uint32_t plain_next(uint32_t running, const uint8_t *p, size_t n) { return ~plain_feed(~running, p, n); }
static uint32_t zlib_next(uint32_t running, const uint8_t *p, size_t n) { return (uint32_t)crc32(running, p, (uInt)n); }
#define BY_BLOCKS(name, next, block)                                                                           \
    __attribute__((noinline)) static uint32_t name(const uint8_t *p, size_t n) {                               \
        uint32_t r = 0;                                                                                        \
        for (size_t at = 0; at < n; at += block) r = next(r, p + at, n - at < block ? n - at : block);         \
        return r;                                                                                              \
    }
BY_BLOCKS(ours_512, gpt_crc32_next, 512)
BY_BLOCKS(plain_512, plain_next, 512)
BY_BLOCKS(zlib_512, zlib_next, 512)
BY_BLOCKS(ours_4096, gpt_crc32_next, 4096)
BY_BLOCKS(plain_4096, plain_next, 4096)
BY_BLOCKS(zlib_4096, zlib_next, 4096)

typedef uint32_t (*sum_fn)(const uint8_t *p, size_t n);

static volatile uint32_t sink;

static double now_ns(void) {
    struct timespec t;
    clock_gettime(CLOCK_MONOTONIC, &t);
    return t.tv_sec * 1e9 + t.tv_nsec;
}

static int by_size(const void *a, const void *b) {
    double x = *(const double *)a, y = *(const double *)b;
    return (x > y) - (x < y);
}

// One sample: the time of a call, over enough calls for the clock, each at another place so that none can be left out.
static double sample(sum_fn f, const uint8_t *p, size_t n) {
    size_t calls = 200000 / (n + 200) + 1;
    uint32_t all = 0;
    double from = now_ns();
    for (size_t i = 0; i < calls; i++) all ^= f(p + (i & 7), n);
    double spent = now_ns() - from;
    sink = all;
    return spent / (double)calls;
}

// The medians of three functions, sampled in turn.
static void medians(const sum_fn f[3], const uint8_t *p, size_t n, double out[3]) {
    static double t[3][SAMPLES];
    for (int s = 0; s < SAMPLES; s++)
        for (int j = 0; j < 3; j++) t[j][s] = sample(f[j], p, n);
    for (int j = 0; j < 3; j++) {
        qsort(t[j], SAMPLES, sizeof(double), by_size);
        out[j] = t[j][SAMPLES / 2];
    }
}

static double lent_median(const uint8_t *p, size_t n) {
    static double t[SAMPLES];
    uint32_t times = 2000;
    for (int s = 0; s < SAMPLES; s++) {
        double from = now_ns();
        sink = rt_header_sums(p, n, times);
        t[s] = (now_ns() - from) / times;
    }
    qsort(t, SAMPLES, sizeof(double), by_size);
    return t[SAMPLES / 2];
}

static int differs(const char *what, size_t n, uint32_t ours, uint32_t theirs) {
    if (ours == theirs) return 0;
    printf("DIFFERENT: %s at %zu: %08x, expected %08x\n", what, n, ours, theirs);
    return 1;
}

// An entry array: every so many slots one is used, until there are enough; a used slot has a type, a GUID, blocks and a short name.
static void make_array(uint8_t *p, int used, int every) {
    memset(p, 0, ENTRY * SLOTS + 16);
    for (int k = 0; k < used; k++) {
        uint8_t *e = p + ENTRY * every * k;
        for (int i = 0; i < 32; i++) e[i] = (uint8_t)(rand() >> 7);
        e[32] = e[40] = (uint8_t)(34 + k);
        for (int i = 0; i < 5; i++) e[56 + 2 * i] = (uint8_t)"sheet"[i];
    }
}

// Bytes that are mostly zero, of many lengths and cut in two anywhere.
static int compare_sparse(uint8_t *p) {
    int bad = 0;
    for (int k = 0; k < 4000; k++) {
        size_t n = (size_t)rand() % (k % 8 ? 3000 : 40000), cut = (size_t)rand() % (n + 1);
        memset(p, 0, n);
        for (int left = rand() % 40; left > 0; left--) p[(size_t)rand() % (n + 1)] = (uint8_t)rand();
        bad |= differs("crc32 of few bytes that are not zero", n, gpt_crc32(p, n), zlib_sum(p, n));
        bad |= differs("crc32_next of such bytes", n, gpt_crc32_next(gpt_crc32(p, cut), p + cut, n - cut), zlib_sum(p, n));
    }
    return bad;
}

// All lengths to 2000 at three places, headers, and the published check value.
static int compare(const uint8_t *p) {
    int bad = differs("check value", 9, gpt_crc32((const uint8_t *)"123456789", 9), 0xCBF43926u);
    for (size_t n = 0; n <= 2000; n++) {
        for (size_t o = 0; o < 3; o++) {
            bad |= differs("crc32 and plain table", n, gpt_crc32(p + o, n), plain(p + o, n));
            bad |= differs("crc32 and zlib", n, gpt_crc32(p + o, n), zlib_sum(p + o, n));
        }
        bad |= differs("crc32_next, cut in two", n, gpt_crc32_next(gpt_crc32(p, n / 3), p + n / 3, n - n / 3), zlib_sum(p, n));
        bad |= differs("crc32_next by blocks", n, ours_512(p, n), plain_512(p, n));
        bad |= differs("header_sum", n, rt_header_sum(p + n, n), n < HEADER ? 0 : plain_header(p + n, n));
    }
    uint32_t all = 0;
    for (size_t at = 0; at + HEADER <= 1000; at++) all ^= plain_header(p + at, HEADER);
    return bad | differs("header_sum_at", 1000, rt_header_sums(p, 1000, 1000 - HEADER + 1), all);
}

static void line(const char *what, size_t n, const double t[3]) {
    printf("%-15s %8zu", what, n);
    for (int j = 0; j < 3; j++) printf("  %7.3f GB/s %9.1f ns", (double)n / t[j], t[j]);
    printf("   %5.2f of the table, %5.2f of zlib\n", t[1] / t[0], t[2] / t[0]);
}

int main(void) {
    static uint8_t p[ROOM + 16], sparse[40000];
    make_table();
    srand(1);
    if (compare_sparse(sparse)) return 1;
    for (size_t i = 0; i < sizeof p; i++) p[i] = (uint8_t)(rand() >> 7);
    if (compare(p)) return 1;
    printf("all answers equal, lengths 0 to 2000, and 4000 slices that are mostly zero\n");
    printf("%-15s %8s  %-25s %-25s %-25s  speed\n", "sum", "bytes", "ours", "plain byte table", "zlib");
    const sum_fn slices[3] = {gpt_crc32, plain, zlib_sum};
    const sum_fn blocks_512[3] = {ours_512, plain_512, zlib_512};
    const sum_fn blocks_4096[3] = {ours_4096, plain_4096, zlib_4096};
    const sum_fn headers[3] = {rt_header_sum, plain_header, zlib_header};
    const size_t sizes[] = {4, 92, 512, 4096, 16384, ROOM};
    double t[3];
    for (size_t i = 0; i < sizeof sizes / sizeof *sizes; i++) {
        medians(slices, p, sizes[i], t);
        line("crc32", sizes[i], t);
    }
    static const struct { const char *name; int used, every; } arrays[] = {
        {"none used", 0, 1}, {"1 used", 1, 1}, {"10 used", 10, 1}, {"10, each 12th", 10, 12}, {"60 used", 60, 1}, {"120 used", 120, 1}, {"128 used", 128, 1},
    };
    for (size_t i = 0; i < sizeof arrays / sizeof *arrays; i++) {
        make_array(sparse, arrays[i].used, arrays[i].every);
        medians(slices, sparse, ENTRY * SLOTS, t);
        line(arrays[i].name, ENTRY * SLOTS, t);
    }
    medians(blocks_512, p, 16384, t);
    line("by 512", 16384, t);
    medians(blocks_4096, p, 16384, t);
    line("by 4096", 16384, t);
    medians(headers, p, HEADER, t);
    line("header", HEADER, t);
    t[0] = lent_median(p, 4096);
    line("lent", HEADER, t);
    return 0;
}
