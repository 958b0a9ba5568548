/* Packed heaps from C: NULL with length 0, sizes at the edges of the shapes, and the rules' own store. */
#include "card.h"
#include <stdio.h>

static int failed = 0;

static void number(const char *what, uint32_t got, uint32_t expected) {
    if (got == expected) return;
    printf("%s: %u %s, expected %u\n", what, (unsigned)got, card_name(got), (unsigned)expected);
    failed = 1;
}

#define WORDS CARD_PACKED_WORDS(2, 2)

static uint32_t store[WORDS + 1], largest[CARD_PACKED_WORDS(1, 17)], out[CARD_OUT_WORDS];

static void words(const char *what, const uint32_t *expected) {
    uint32_t i;
    for (i = 0; i < WORDS; i++) number(what, store[i], expected[i]);
    number("the word behind", store[WORDS], 7);
}
static uint32_t push(uint32_t heap, uint32_t rank, uint32_t tag) {
    return card_packed_push(store, WORDS, 2, 2, heap, rank, tag, 100 * rank);
}
static void pops(uint32_t heap, uint32_t rank, uint32_t tag) {
    number("pop", card_packed_pop(store, WORDS, 2, 2, heap, out, 3), CARD_OK);
    number("what came out", out[0], rank);
    number("its tag", out[1], tag);
    number("its length", out[2], 100 * rank);
}
static uint32_t held(uint32_t heap) {
    number("held", card_packed_held(store, WORDS, 2, 2, heap, out, 1), CARD_OK);
    return out[0];
}

int main(void) {
    static const uint32_t first[WORDS] = {3, 2, 3, 30, 300, 1, 10, 100, 5, 50, 500, 9, 90, 900, 8, 80, 800, 0, 0, 0};
    static const uint32_t last[WORDS] = {0, 2, 0, 0, 0, 0, 7, 0, 0, 0, 0, 0, 0, 0, 8, 80, 800, 0, 0, 0};
    static const uint32_t most[9][2] = {{1, 17}, {2, 16}, {4, 15}, {8, 14}, {16, 13}, {32, 12}, {64, 11}, {128, 10}, {256, 9}};
    const uint32_t bad = CARD_BAD_SHAPE;
    uint32_t i, levels;
    for (i = 0; i < 9; i++) {
        for (levels = 1; levels <= most[i][1]; levels++)
            number("words", card_packed_words(most[i][0], levels), CARD_PACKED_WORDS(most[i][0], levels));
        number("a level more", card_packed_words(most[i][0], most[i][1] + 1), 0);
        number("a heap more", card_packed_words(most[i][0] + 1, most[i][1]), 0);
    }
    number("no heap", card_packed_words(0, 1), 0);
    number("no level", card_packed_words(1, 0), 0);
    number("257 heaps", card_packed_words(257, 1), 0);
    number("a shape that would wrap", card_packed_words(256, 4294967295u), 0);
    number("clear", card_packed_clear(largest, CARD_PACKED_WORDS(1, 17), 1, 17), CARD_OK);
    number("clear with a word less", card_packed_clear(largest, CARD_PACKED_WORDS(1, 17) - 1, 1, 17), bad);
    number("18 levels", card_packed_clear(largest, CARD_PACKED_WORDS(1, 17), 1, 18), bad);

    /* no store */
    number("clear", card_packed_clear(NULL, 0, 2, 2), bad);
    number("push", card_packed_push(NULL, 0, 2, 2, 0, 5, 50, 500), bad);
    number("pop", card_packed_pop(NULL, 0, 2, 2, 0, out, 3), bad);
    number("replace", card_packed_replace(NULL, 0, 2, 2, 0, 5, 50, 500, out, 3), bad);
    number("held", card_packed_held(NULL, 0, 2, 2, 0, out, 1), bad);

    for (i = 0; i <= WORDS; i++) store[i] = 7;
    number("a store that no call has written", push(0, 5, 50), CARD_DAMAGED);
    number("clear", card_packed_clear(store, WORDS, 2, 2), CARD_OK);
    number("push", push(0, 5, 50), CARD_OK);
    number("push", push(0, 3, 30), CARD_OK);
    number("push", push(0, 9, 90), CARD_OK);
    number("push", push(1, 8, 80), CARD_OK);
    number("push", push(1, 1, 10), CARD_OK);
    words("the rules' store", first);
    number("a push at a full heap", push(0, 4, 40), CARD_FULL);
    number("a heap that there is not", push(2, 4, 0), CARD_NO_HEAP);
    number("no tag", push(1, 4, 0), CARD_NO_TAG);
    number("held at heap 0", held(0), 3);
    number("held at heap 1", held(1), 2);
    number("held", card_packed_held(store, WORDS, 2, 2, 2, out, 1), CARD_NO_HEAP);

    /* no room for the answer */
    number("pop", card_packed_pop(store, WORDS, 2, 2, 1, NULL, 0), bad);
    number("replace", card_packed_replace(store, WORDS, 2, 2, 1, 5, 50, 500, NULL, 0), bad);
    number("held", card_packed_held(store, WORDS, 2, 2, 1, NULL, 0), bad);
    words("what refusals leave", first);

    pops(0, 3, 30);
    pops(0, 5, 50);
    pops(0, 9, 90);
    number("pop", card_packed_pop(store, WORDS, 2, 2, 0, out, 3), CARD_EMPTY);
    number("a refusal's rank", out[0], 0);
    number("replace", card_packed_replace(store, WORDS, 2, 2, 1, 0, 7, 0, out, 3), CARD_OK);
    number("what came out", out[0], 1);
    number("its tag", out[1], 10);
    number("its length", out[2], 100);
    words("heap 1 alone", last);
    store[14] = 9;
    number("ranks are not tested", card_packed_pop(store, WORDS, 2, 2, 1, out, 3), CARD_OK);
    store[1] = 4;
    number("held above the room", card_packed_held(store, WORDS, 2, 2, 1, out, 1), CARD_DAMAGED);
    return failed;
}
