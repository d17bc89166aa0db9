/* What the three examples share: the two windows of a card in a file or a device, and words for a refusal.
   Of a card only the windows are read, some 33 KiB, however large it is; and only blocks that have changed are written. */
#ifndef CARD_FILE_H
#define CARD_FILE_H
#define _DEFAULT_SOURCE
#include <card.h>
#include <errno.h>
#include <fcntl.h>
#include <inttypes.h>
#include <stdio.h>
#include <stdlib.h>
#include <string.h>
#include <sys/file.h>
#include <unistd.h>

#define ARRAY 16384
static const char unchanged[] = "Nothing was changed.";
enum { DONE = 0, REFUSED = 1, FAILED = 2 }; /* the exit status; FAILED also where the words of the command are not understood */

typedef struct card_file {
    const char *path;
    int fd;
    uint64_t size, b, blocks;
    size_t head_len, tail_len;
    uint8_t head[2 * 4096 + ARRAY], tail[4096 + ARRAY];
} card_file;

/* The windows as a call takes them. */
#define WINDOWS(f) (f)->head, (f)->head_len, (f)->tail, (f)->tail_len, (f)->blocks, (f)->b

/* That reading or writing failed is no verdict on the card. */
static inline void fail(const card_file *f, const char *what, const char *left) {
    bool name = errno == ENOENT || errno == EACCES || errno == EISDIR;
    fprintf(stderr, "%s: %s: %s. %s Next: %s.\n", f->path, what, strerror(errno), left, name ? "look at the name, and at who may open it" : "mend what the system says, a full disk or a device and its cable, then run list");
    exit(FAILED);
}

/* A number of a command's word; the program ends with its usage where it is none. */
static inline uint64_t number_in(const char *word, const char *usage) {
    char *end;
    errno = 0;
    uint64_t n = strtoull(word, &end, 10);
    if (errno != 0 || *end != '\0' || word[0] < '0' || word[0] > '9') {
        fprintf(stderr, "%s is no number. Usage: %s\n", word, usage);
        exit(FAILED);
    }
    return n;
}

/* What a command ends with, unless its words could not be written. */
static inline int ended(int status) {
    if (fflush(stdout) == 0) return status;
    fprintf(stderr, "what was done could not be printed: %s. Next: run list.\n", strerror(errno));
    return FAILED;
}

/* Waits for whoever else has the file open here, and says so, so that two updates come one after the other. */
static inline void open_card(card_file *f, const char *path, int flags) {
    f->path = path;
    f->fd = open(path, flags, 0666);
    int lock = flags == O_RDONLY ? LOCK_SH : LOCK_EX;
    if (f->fd >= 0 && flock(f->fd, lock | LOCK_NB) != 0 && errno == EWOULDBLOCK) fprintf(stderr, "%s: another program has it open; waiting.\n", path);
    if (f->fd < 0 || flock(f->fd, lock) != 0) fail(f, "cannot be opened", unchanged);
    off_t size = lseek(f->fd, 0, SEEK_END);
    if (size < 0) fail(f, "has no length", unchanged);
    f->size = (uint64_t)size;
}

static inline void read_bytes(const card_file *f, uint8_t *to, size_t n, uint64_t at) {
    for (ssize_t got; n > 0; to += got, at += (uint64_t)got, n -= (size_t)got) {
        got = pread(f->fd, to, n, (off_t)at);
        if (got == 0) errno = EIO;
        if (got <= 0) fail(f, "cannot be read", unchanged);
    }
}

/* Takes the file as a card of blocks of b bytes. A file that is too short for windows gets empty ones: every call refuses it by 8 or 10 before it looks at them. */
static inline void take_windows(card_file *f, uint64_t b) {
    f->b = b;
    f->blocks = f->size / b;
    bool fits = f->blocks > 2 * ARRAY / b + 3;
    f->head_len = fits ? 2 * b + ARRAY : 0;
    f->tail_len = fits ? b + ARRAY : 0;
    read_bytes(f, f->head, f->head_len, 0);
    read_bytes(f, f->tail, f->tail_len, f->blocks * b - f->tail_len);
}

/* Whether the second block of this size begins as a header does. */
static inline bool begins(const card_file *f, uint64_t b) { return f->head_len >= b + 8 && memcmp(f->head + b, "EFI PART", 8) == 0; }

/* The block size at which the reader takes a table, 512 or 4,096. Where it takes none, 512 is left, and the answer is the reader's there. A file that shows tables of both sizes, as a card that
   was copied over an older one does, is for a person to judge, and the program ends. */
static inline card_copy find_card(card_file *f) {
    take_windows(f, 4096);
    card_copy large = card_window_reader_copy(WINDOWS(f));
    bool both = large.number == 0 && begins(f, 512);
    take_windows(f, 512);
    card_copy small = card_window_reader_copy(WINDOWS(f));
    if (both || (small.number == 0 && (large.number == 0 || begins(f, 4096)))) {
        fprintf(stderr, "%s: shows tables of blocks of 512 and of 4,096 bytes, and one may be an older card's. Nothing was changed. Next: look at both by card list -b, and judge which card it is.\n", f->path);
        exit(REFUSED);
    }
    if (large.number == 0) take_windows(f, 4096);
    return large.number == 0 ? large : small;
}

/* Writes one block at a place, whole. */
static inline void write_block(const card_file *f, const uint8_t *from, uint64_t at, const char *left) {
    for (uint64_t done = 0; done < f->b;) {
        ssize_t n = pwrite(f->fd, from + done, f->b - done, (off_t)(at + done));
        if (n < 0) fail(f, "cannot be written", left);
        done += (uint64_t)n;
    }
}

/* Writes the blocks of the windows that differ from what the file has, and has the device store them. Gives the last one's number. */
static inline uint64_t store_changed(const card_file *f, card_file *was, const char *left) {
    uint64_t block = 0;
    for (uint64_t at = 0; at < f->head_len; at += f->b) {
        if (memcmp(f->head + at, was->head + at, f->b) != 0) write_block(f, f->head + at, at, left), block = at / f->b;
    }
    for (uint64_t at = 0, base = (f->blocks - ARRAY / f->b - 1) * f->b; at < f->tail_len; at += f->b) {
        if (memcmp(f->tail + at, was->tail + at, f->b) != 0) write_block(f, f->tail + at, base + at, left), block = (base + at) / f->b;
    }
    if (fsync(f->fd) != 0) fail(f, "was not stored", left);
    *was = *f;
    return block;
}

/* What to do next about a number; what it means is the library's to say. */
static const struct { uint32_t number; const char *what; } next[] = {
    {CARD_OVERFLOW, "take a smaller file"},
    {CARD_INVALID_GPT_SIGNATURE, "if there is a good copy, update repairs it; else look whether this is a card"},
    {CARD_INVALID_CRC32_CHECKSUM, "if there is a good copy, update repairs it; of another maker's card, card uefi shows the table"},
    {CARD_PARTS_CRC, "if there is a good copy, update repairs it"},
    {CARD_TO_SMALL_FOR_BACKUP, "take a longer file"},
    {CARD_BACKUP_LBA_TO_EARLY, "take a longer file, at least 34,816 bytes"},
    {CARD_WRONG_LAYOUT, "compare the file's length with the card's; of another maker's card, card uefi shows the table"},
    {CARD_DISAGREE, "update takes the table that readers show, and repairs the other"},
    {CARD_BAD_SLOT, "name a slot from 1 to 128"},
    {CARD_BAD_RANGE, "name the blocks the other way round"},
    {CARD_OUTSIDE_USABLE, "list shows the free ranges"},
    {CARD_OVERLAP, "list shows the free ranges"},
    {CARD_TWIN_GUID, "run it again: the GUID is drawn anew"},
    {CARD_NO_GOOD_COPY, "look whether this is a card of this length; of another maker's card, card uefi shows the table"},
};

/* Says what was refused, what is left, and what to do. slot is the answer's, or differs where the place is a slot. */
static inline int refuse(const card_file *f, const char *what, const char *left, uint32_t number, uint32_t slot, uint32_t place) {
    char words[CARD_MESSAGE_SIZE];
    const char *then = "look the number up in card.h";
    for (size_t k = 0; k < sizeof next / sizeof *next; k++) {
        if (next[k].number == number) then = next[k].what;
    }
    card_message(words, sizeof words, number, place, slot);
    fprintf(stderr, "%s: %s: %s. %s Next: %s.\n", f->path, what, words, left, then);
    return REFUSED;
}

/* A GUID of version 4, drawn from the system. */
static inline gpt_guid drawn_guid(const card_file *f) {
    gpt_guid guid;
    if (getentropy(&guid, sizeof guid) != 0) fail(f, "no random bytes for a GUID", unchanged);
    guid.time_high = (uint16_t)((guid.time_high & 0x0FFF) | 0x4000);
    guid.tail[0] = (uint8_t)((guid.tail[0] & 0x3F) | 0x80);
    return guid;
}

/* The name of a command's word; the program ends with the reason where it is none. */
static inline gpt_name_of_text name_in(const char *word) {
    gpt_name_of_text name = gpt_name_from_utf8(word, strlen(word));
    if (name.number != 0) {
        char words[CARD_MESSAGE_SIZE];
        card_message(words, sizeof words, name.number, 0, 0);
        fprintf(stderr, "the name is not taken: %s, from byte %zu on. Nothing was changed. Next: give a shorter one, in UTF-8.\n", words, name.at);
        exit(FAILED);
    }
    return name;
}

/* A record of the type "basic data". */
static inline gpt_partition record(uint64_t first, uint64_t last, gpt_guid guid, gpt_name_of_text name) {
    gpt_partition p = {.part_guid = guid, .first_lba = first, .last_lba = last};
    p.part_type_guid = gpt_guid_from_text("ebd0a0a2-b9e5-4433-87c0-68b6b72699c7", 36).guid;
    memcpy(p.name, name.name, sizeof p.name);
    return p;
}
#endif
