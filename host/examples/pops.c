/* Pushes four elements into a tree of order 2 and pops them: 1, 3, 5, 8, then refusal 6. */
#include "card.h"
#include <stdio.h>
#include <stdlib.h>

/* Ends the program where a call was refused. */
static void must(const char *call, uint32_t number) {
    if (number == CARD_OK) return;
    fprintf(stderr, "%s: refusal %u, %s\n", call, (unsigned)number, card_name(number));
    exit(1);
}

int main(void) {
    const uint32_t order = 2, levels = 2, ranks[4] = {5, 3, 8, 1};
    uint32_t out[CARD_OUT_WORDS], number;
    size_t len = card_tree_words(order, levels);
    uint32_t *store = (uint32_t *)malloc(len * sizeof *store);
    if (len == 0 || store == NULL) {
        fprintf(stderr, "no store of order %u, levels %u\n", (unsigned)order, (unsigned)levels);
        return 1;
    }
    must("clear", card_tree_clear(store, len, order, levels));
    for (int i = 0; i < 4; i++)
        must("push", card_tree_push(store, len, order, levels, ranks[i], 10 * ranks[i], 100 * ranks[i]));
    while ((number = card_tree_pop(store, len, order, levels, out, CARD_OUT_WORDS)) == CARD_OK)
        printf("out %u %u %u\n", (unsigned)out[0], (unsigned)out[1], (unsigned)out[2]);
    printf("refusal %u, %s\n", (unsigned)number, card_name(number));
    free(store);
    return number == CARD_EMPTY ? 0 : 1;
}
