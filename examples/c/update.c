/* Puts a partition into a slot of a card in a file or a device, in four stages of one block each: each block is stored before the next is written, so that a card that is
   pulled in the middle shows the old table or the new one. A card that the check refuses is repaired first, if one of its tables is good and the other one is damaged.

   Usage: update FILE SLOT FIRST LAST NAME [STAGES], where STAGES, 0 to 4, ends it after so many stages, as a pulled card would.
   Exit status 0 done, 1 refused, 2 not understood, or reading or writing failed. */
#include "card_file.h"

static const char usage[] = "update FILE SLOT FIRST LAST NAME [STAGES]";

/* What a cut after so many stages leaves. */
static const char *const left[] = {
    "A cut here leaves the card as it was.",
    "A cut here leaves the old table: the back one is half written, and readers take the front one.",
    "A cut here leaves the old table: both are whole, and readers take the front one.",
    "A cut here leaves the new table: the front one is half written, and readers take the back one.",
    "Both tables are new.",
};

/* Gives the table that the reader does not take what the other one has. No cut of it changes what readers show. */
static int repair(card_file *f, card_file *was) {
    static const char begun[] = "A repair was begun, and readers show the same table as before.";
    card_repair_step step = card_window_start_repair(WINDOWS(f));
    if (step.number != 0) return refuse(f, "not repaired", unchanged, step.number, 0, 0);
    uint32_t stages = (uint32_t)(ARRAY / f->b) + 2;
    store_changed(f, was, begun);
    while (step.state.next <= stages) {
        step = card_window_next_repair(WINDOWS(f), step.state.next, step.state);
        if (step.number != 0) return refuse(f, "not repaired", begun, step.number, 0, 0);
        store_changed(f, was, begun);
    }
    printf("%s: repaired: the %s table now says what the other one says\n", f->path, step.state.back ? "front" : "back");
    return DONE;
}

/* The four stages. The state of each leads to the next, and is handed on once. */
static int put(card_file *f, card_file *was, uint32_t slot, gpt_partition partition, uint64_t stages) {
    if (stages == 0) return DONE;
    card_update_step step = card_window_start_put(WINDOWS(f), slot, partition);
    if (step.number != 0) return refuse(f, "not put", unchanged, step.number, step.slot, step.place);
    for (uint64_t stage = 1;; stage++) {
        uint64_t block = store_changed(f, was, left[stage - 1]);
        printf("stage %" PRIu64 ": block %" PRIu64 " stored. %s\n", stage, block, left[stage]);
        if (stage == stages || stage == 4) return DONE;
        step = card_window_next_stage(WINDOWS(f), step.state.next, step.state);
        if (step.number != 0) return refuse(f, "not put to the end", left[stage], step.number, 0, 0);
    }
}

int main(int n, char **word) {
    static card_file f, was;
    if (n < 6 || n > 7) {
        fprintf(stderr, "usage: %s\n", usage);
        return FAILED;
    }
    uint64_t slot = number_in(word[2], usage), first = number_in(word[3], usage), last = number_in(word[4], usage), stages = n > 6 ? number_in(word[6], usage) : 4;
    if (stages > 4) {
        fprintf(stderr, "STAGES is 0 to 4. Usage: %s\n", usage);
        return FAILED;
    }
    if (slot > 128) slot = 0; /* no slot either way: the library refuses it by 18 */
    gpt_name_of_text name = name_in(word[5]);
    open_card(&f, word[1], O_RDWR);
    card_copy copy = find_card(&f);
    if (copy.number != 0) return refuse(&f, "not put", unchanged, copy.number, 0, 0);
    was = f;
    card_answer check = card_window_check(WINDOWS(&f));
    /* 16 of the front table may be a card that was copied onto a longer one, whose back table is an older card's: that is for a person to judge. */
    if (check.number == CARD_WRONG_LAYOUT && check.place == CARD_PLACE_FRONT) return refuse(&f, "not repaired and not put", unchanged, check.number, 0, check.place);
    if (check.number != 0) {
        printf("%s: the check refuses %" PRIu32 "; readers take the %s table\n", f.path, check.number, copy.back ? "back" : "front");
        if (repair(&f, &was) != DONE) return REFUSED;
    }
    /* A partition that is there keeps its GUID. */
    card_slot_read before = card_window_read_slot(WINDOWS(&f), (uint32_t)slot);
    gpt_guid guid = before.number == 0 && before.present ? before.partition.part_guid : drawn_guid(&f);
    return ended(put(&f, &was, (uint32_t)slot, record(first, last, guid, name), stages));
}
