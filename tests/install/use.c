/* What a program that uses the installed library looks like: it lays a card, puts a slot and counts it. Exit status 0 if all is as it must be. */
#include <card.h>
#include <stdio.h>

static uint8_t image[68 * 512];

int main(void) {
    gpt_partition map = {.part_type_guid = {1, 2, 3, {4}}, .first_lba = 34, .last_lba = 34, .name = {'m', 'a', 'p'}};
    if (card_lay(image, sizeof image, 512, (gpt_guid){5, 6, 7, {8}}).number != CARD_ACCEPTED) return 1;
    if (card_put(image, sizeof image, 512, 1, map).number != CARD_ACCEPTED) return 2;
    card_answer second = card_put(image, sizeof image, 512, 2, map);
    card_count used = card_count_used(image, sizeof image, 512);
    printf("used %u, then refused %u by slot %u\n", used.count, second.number, second.slot);
    return used.number == CARD_ACCEPTED && used.count == 1 && second.number == CARD_OVERLAP && second.slot == 1 ? 0 : 3;
}
