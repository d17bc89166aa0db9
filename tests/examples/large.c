/* Lays a card of blocks of 4,096 bytes in a new file and puts one partition, as lay does for blocks of 512: large FILE BYTES. */
#include "card_file.h"

int main(int n, char **word) {
    static card_file f, was;
    if (n != 3) return FAILED;
    open_card(&f, word[1], O_RDWR | O_CREAT);
    f.size = number_in(word[2], "large FILE BYTES");
    if (ftruncate(f.fd, (off_t)f.size) != 0) return FAILED;
    take_windows(&f, 4096);
    was = f;
    if (card_window_lay(WINDOWS(&f), drawn_guid(&f)).number != 0) return REFUSED;
    if (card_window_put(WINDOWS(&f), 1, record(6, 900, drawn_guid(&f), name_in("last year"))).number != 0) return REFUSED;
    store_changed(&f, &was, unchanged);
    return DONE;
}
