/* Fair ranks from C: NULL with length 0, sizes, short slices, and a few strips of two flows. */
#include "card.h"
#include <stdio.h>

static int failed = 0;

static void number(const char *what, uint32_t got, uint32_t expected) {
    if (got == expected) return;
    printf("%s: %u %s, expected %u\n", what, (unsigned)got, card_name(got), (unsigned)expected);
    failed = 1;
}

#define STORE CARD_TREE_WORDS(2, 2)

static uint32_t state[CARD_FAIR_WORDS], store[STORE], out[CARD_OUT_WORDS];

static uint32_t push(uint32_t flow, uint32_t weight, uint32_t tag, uint32_t length) {
    return card_fair_push(state, CARD_FAIR_WORDS, store, STORE, 2, 2, flow, weight, tag, length);
}

int main(void) {
    const uint32_t bad = CARD_BAD_SHAPE;
    number("words of a state", (uint32_t)card_fair_words(), CARD_FAIR_WORDS);

    /* no state, no store: a strip outside the limits comes before both */
    number("push", card_fair_push(NULL, 0, NULL, 0, 2, 2, 0, 1, 50, 64), bad);
    number("push of a bad strip", card_fair_push(NULL, 0, NULL, 0, 2, 2, 64, 1, 50, 64), CARD_BAD_STRIP);
    number("push without a store", card_fair_push(state, CARD_FAIR_WORDS, NULL, 0, 2, 2, 0, 1, 50, 64), bad);
    number("pop", card_fair_pop(NULL, 0, store, STORE, 2, 2, out, 3), bad);
    number("pop without a store", card_fair_pop(state, CARD_FAIR_WORDS, NULL, 0, 2, 2, out, 3), bad);
    number("reset", card_fair_reset(NULL, 0, store, STORE, 2, 2), bad);
    number("held", card_fair_held(NULL, 0, 2, 2, out, 1), bad);
    number("reset without a store", card_fair_reset(state, CARD_FAIR_WORDS, NULL, 0, 2, 2), bad);
    number("reset with a word less", card_fair_reset(state, CARD_FAIR_WORDS - 1, store, STORE, 2, 2), bad);

    number("clear", card_tree_clear(store, STORE, 2, 2), CARD_OK);
    number("reset", card_fair_reset(state, CARD_FAIR_WORDS, store, STORE, 2, 2), CARD_OK);
    number("push", push(0, 1, 50, 64), CARD_OK);
    number("push", push(63, 1024, 30, 9216), CARD_OK);
    number("a finish of flow 0", state[1], 65536);
    number("a finish of flow 63", state[64], 144 * 64);
    number("a flow above the last", push(64, 1, 1, 64), CARD_BAD_STRIP);
    number("a weight of 0", push(0, 0, 1, 64), CARD_BAD_STRIP);
    number("a weight above the highest", push(0, 1025, 1, 64), CARD_BAD_STRIP);
    number("a length of 0", push(0, 1, 1, 0), CARD_BAD_STRIP);
    number("a length above the longest", push(0, 1, 1, 9217), CARD_BAD_STRIP);
    number("no tag", push(0, 1, 0, 64), CARD_NO_TAG);
    number("a reset with something held", card_fair_reset(state, CARD_FAIR_WORDS, store, STORE, 2, 2), CARD_NOT_EMPTY);

    /* no room for the answer */
    number("pop", card_fair_pop(state, CARD_FAIR_WORDS, store, STORE, 2, 2, NULL, 0), bad);
    number("held", card_fair_held(store, STORE, 2, 2, NULL, 0), bad);
    number("held", card_fair_held(store, STORE, 2, 2, out, 1), CARD_OK);
    number("what is held", out[0], 2);

    number("pop", card_fair_pop(state, CARD_FAIR_WORDS, store, STORE, 2, 2, out, 3), CARD_OK);
    number("its rank", out[0], 144 * 64);
    number("its tag", out[1], 30);
    number("its length", out[2], 9216);
    number("the clock", state[0], 144 * 64);
    state[0] = 4294967295u;
    number("a clock that is spent", push(0, 1024, 1, 1), CARD_CLOCK_SPENT);
    return failed;
}
