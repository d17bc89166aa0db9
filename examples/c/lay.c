/* Lays a card of blocks of 512 bytes in a regular file, new or of that length already, and puts one partition into slot 1, from block 2048 on (of a card that is not so long, from its first usable one) as far as the card goes.

   Usage: lay FILE BYTES NAME. Exit status 0 done, 1 refused, 2 not understood, or reading or writing failed. */
#include "card_file.h"
#include <sys/stat.h>

static const char usage[] = "lay FILE BYTES NAME";

/* Whether all bytes of the windows are zero. */
static bool blank(const card_file *f) {
    for (size_t k = 0; k < f->head_len; k++) {
        if (f->head[k] != 0) return false;
    }
    for (size_t k = 0; k < f->tail_len; k++) {
        if (f->tail[k] != 0) return false;
    }
    return true;
}

/* A new file gets its length; one that is there must have it, and be blank where the tables go or have a card without used slots. */
static int look(card_file *f, uint64_t bytes) {
    struct stat about;
    if (fstat(f->fd, &about) != 0) fail(f, "cannot be looked at", unchanged);
    if (!S_ISREG(about.st_mode)) {
        fprintf(stderr, "%s: is no regular file. Nothing was changed. Next: name a file.\n", f->path);
        return REFUSED;
    }
    if (f->size != 0 && f->size != bytes) {
        fprintf(stderr, "%s: is there, with %" PRIu64 " bytes and not %" PRIu64 ". Nothing was changed. Next: name its own length, or another file.\n", f->path, f->size, bytes);
        return REFUSED;
    }
    if (f->size == 0) return DONE;
    bool card = find_card(f).number == 0;
    gpt_count used = card_window_reader_count(WINDOWS(f));
    if (card && used.count == 0) return DONE;
    if (card) fprintf(stderr, "%s: has a card with %" PRIu32 " used slots, which a lay would drop. Nothing was changed. Next: move the file away.\n", f->path, used.count);
    if (!card && blank(f)) return DONE;
    if (!card) fprintf(stderr, "%s: is not blank where the tables go: another table, a card of another length or a file system may be there. Nothing was changed. Next: look at it, and move the file away.\n", f->path);
    return REFUSED;
}

/* Stores a laid card so that a cut leaves what was there, or the whole new table: block 0 and the back table, then the front array, then the front header. */
static void store(const card_file *laid, card_file *was) {
    static const char left[] = "A part of the tables was written; list shows what readers see.";
    static card_file step;
    step = *was;
    memcpy(step.head, laid->head, laid->b);
    memcpy(step.tail, laid->tail, laid->tail_len);
    store_changed(&step, was, left);
    memcpy(step.head + 2 * laid->b, laid->head + 2 * laid->b, ARRAY);
    store_changed(&step, was, left);
    store_changed(laid, was, left);
}

/* The card in memory: what is refused here changes nothing. */
static card_answer plan(card_file *laid, uint64_t bytes, gpt_name_of_text name) {
    laid->b = 512, laid->blocks = bytes / 512, laid->head_len = 1024 + ARRAY, laid->tail_len = 512 + ARRAY;
    card_answer answer = card_window_lay(WINDOWS(laid), drawn_guid(laid));
    if (answer.number != 0) return answer;
    uint64_t last = laid->blocks - ARRAY / 512 - 2, first = last < 2048 ? ARRAY / 512 + 2 : 2048;
    return card_window_put(WINDOWS(laid), 1, record(first, last, drawn_guid(laid), name));
}

int main(int n, char **word) {
    static card_file f, laid, was;
    if (n != 4) {
        fprintf(stderr, "usage: %s\n", usage);
        return FAILED;
    }
    uint64_t bytes = number_in(word[2], usage);
    laid.path = word[1];
    card_answer answer = plan(&laid, bytes, name_in(word[3]));
    if (answer.number != 0) return refuse(&laid, "not laid", unchanged, answer.number, answer.slot, answer.place);
    open_card(&f, word[1], O_RDWR | O_CREAT);
    if (look(&f, bytes) != DONE) return REFUSED;
    if (f.size == 0 && ftruncate(f.fd, (off_t)bytes) != 0) fail(&f, "cannot have that length", "An empty file is left.");
    f.size = bytes;
    take_windows(&f, 512);
    was = f;
    laid.fd = f.fd, laid.size = bytes;
    store(&laid, &was);
    card_slot_read one = card_window_read_slot(WINDOWS(&laid), 1);
    printf("%s: laid: %" PRIu64 " blocks of 512 bytes; slot 1 has blocks %" PRIu64 " to %" PRIu64 "\n", f.path, laid.blocks, one.partition.first_lba, one.partition.last_lba);
    return ended(DONE);
}
