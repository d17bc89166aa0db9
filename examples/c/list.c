/* Lists a card of any size in a file or a device: each used slot with its blocks, type, GUID and name, the date of its map where it has a label, and the free ranges.
   A card that was pulled in the middle of an update is listed as readers show it, without dates and free ranges.

   Usage: list FILE. Exit status 0 for a whole card, 1 where the check refuses, 2 not understood, or reading failed. */
#include "card_file.h"

static void print_guid(gpt_guid guid) {
    char text[GPT_GUID_TEXT_SIZE];
    gpt_guid_to_text(text, sizeof text, guid);
    printf("%s", text);
}

/* How many bytes of a text are a character that a terminal would obey: a control character, or one that turns the writing around, U+202A to U+202E and U+2066 to U+2069. */
static int obeyed(const unsigned char *c) {
    if (c[0] < 0x20 || c[0] == 0x7F) return 1;
    if (c[0] == 0xC2 && c[1] < 0xA0) return 2;
    bool turns = c[0] == 0xE2 && ((c[1] == 0x80 && c[2] >= 0xAA && c[2] <= 0xAE) || (c[1] == 0x81 && c[2] >= 0xA6 && c[2] <= 0xA9));
    return turns ? 3 : 0;
}

/* A name as UTF-8, with a question mark for such a character and a backslash before a quote and a backslash. */
static void print_name(const uint16_t *name) {
    char text[GPT_NAME_TEXT_SIZE];
    gpt_name_to_utf8(text, sizeof text, name, 36);
    for (const unsigned char *c = (const unsigned char *)text; *c;) {
        int n = obeyed(c);
        if (*c == '"' || *c == '\\') printf("\\");
        printf("%c", n ? '?' : *c);
        c += n ? n : 1;
    }
}

/* The label stands in no window, so its 13 bytes are read where the library says that they are. */
static void print_date(const card_file *f, uint32_t slot) {
    uint8_t bytes[13];
    card_spot spot = card_window_payload_place(WINDOWS(f), slot, 0, sizeof bytes);
    if (spot.number != 0) return;
    read_bytes(f, bytes, sizeof bytes, spot.at);
    card_label_read read = card_window_read_label(WINDOWS(f), slot, bytes, sizeof bytes);
    if (read.number == 0) printf(" of %04d-%02d-%02d, style %d, sheet %d", read.label.year, read.label.month, read.label.day, read.label.style, read.label.sheet);
    else if (read.number == CARD_BAD_DATE) printf(" with a label that has no date");
}

static void print_free(const card_file *f) {
    uint64_t starts[CARD_RUNS], lengths[CARD_RUNS];
    card_count runs = card_window_free_runs(WINDOWS(f), starts, CARD_RUNS, lengths, CARD_RUNS);
    for (uint32_t k = 0; k < runs.count; k++) printf("free: %" PRIu64 " to %" PRIu64 "\n", starts[k], starts[k] + lengths[k] - 1);
}

int main(int n, char **word) {
    static card_file f;
    static card_row rows[128];
    if (n != 2) {
        fprintf(stderr, "usage: list FILE\n");
        return FAILED;
    }
    open_card(&f, word[1], O_RDONLY);
    card_copy copy = find_card(&f);
    if (copy.number != 0) return refuse(&f, "not listed", unchanged, copy.number, 0, 0);
    card_answer check = card_window_check(WINDOWS(&f));
    gpt_count used = card_window_reader_list(WINDOWS(&f), (uint8_t *)rows, sizeof rows);
    for (uint32_t k = 0; k < used.count; k++) {
        const gpt_entry *e = &rows[k].entry;
        printf("slot %" PRIu64 ": %" PRIu64 " to %" PRIu64 ", type ", rows[k].slot, e->first_lba, e->last_lba);
        print_guid(e->part_type_guid);
        printf(", GUID ");
        print_guid(e->part_guid);
        printf(", \"");
        print_name(e->name);
        printf("\"");
        print_date(&f, (uint32_t)rows[k].slot);
        printf("\n");
    }
    print_free(&f);
    printf("used %" PRIu32 " of 128; %" PRIu64 " blocks of %" PRIu64 " bytes; %s\n", used.count, f.blocks, f.b, check.number == 0 ? "whole" : copy.back ? "the back table" : "the front table");
    if (ended(DONE) != DONE) return FAILED;
    return check.number == 0 ? DONE : refuse(&f, "listed, but not whole", unchanged, check.number, check.differs, check.place);
}
