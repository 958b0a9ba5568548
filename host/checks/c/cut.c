/*
 * Power goes in the middle of a call: of the words that the call would have written any may be there and any not. Held here is what
 * docs/FIRMWARE.md says: a call changes one slot of each level at most; from whatever is left the mender makes a store that passes the
 * check, and every element whose slot the call did not touch is in it.
 */
#include "card.h"
#include "random.h"
#include <stdio.h>
#include <string.h>

#define ORDER 4u
#define LEVELS 4u
#define WORDS CARD_TREE_WORDS(ORDER, LEVELS)
#define SLOTS (WORDS / 4)

static uint32_t before[WORDS], after[WORDS], cut[WORDS], mended[WORDS], out[CARD_OUT_WORDS];
static uint32_t passed, broken;
static int failed = 0;

static void must(const char *what, int holds) {
    if (holds) return;
    printf("%s\n", what);
    failed = 1;
}

static int in(const uint32_t *store, uint32_t tag) {
    uint32_t slot;
    for (slot = 0; slot < SLOTS; slot++)
        if (store[4 * slot + 3] != 0 && store[4 * slot + 1] == tag) return 1;
    return 0;
}

/* The level of a slot, from 0: 4 slots, 16, 64 and so on. */
static uint32_t level(uint32_t slot) {
    uint32_t l = 0, end = ORDER, width = ORDER;
    while (slot >= end) {
        width *= ORDER;
        end += width;
        l++;
    }
    return l;
}

static void cut_off(void) {
    uint32_t slot, i, changed[LEVELS] = {0, 0, 0, 0};
    for (i = 0; i < WORDS; i++) cut[i] = word() % 2 ? before[i] : after[i];
    for (slot = 0; slot < SLOTS; slot++)
        if (memcmp(before + 4 * slot, after + 4 * slot, 16) != 0) changed[level(slot)]++;
    for (i = 0; i < LEVELS; i++) must("a call changed two slots of a level", changed[i] <= 1);
    must("check", card_tree_check(cut, WORDS, ORDER, LEVELS, out, 2) == CARD_OK);
    if (out[0] == 1) passed++;
    else broken++;
    must("mend", card_tree_mend(cut, WORDS, mended, WORDS, ORDER, LEVELS, out, 1) == CARD_OK);
    must("check of what was mended", card_tree_check(mended, WORDS, ORDER, LEVELS, out, 2) == CARD_OK && out[0] == 1);
    for (slot = 0; slot < SLOTS; slot++)
        if (before[4 * slot + 3] != 0 && memcmp(before + 4 * slot, after + 4 * slot, 16) == 0)
            must("an element of a slot that was not touched is gone", in(mended, before[4 * slot + 1]));
}

int main(void) {
    uint32_t i, tag = 1;
    must("clear", card_tree_clear(before, WORDS, ORDER, LEVELS) == CARD_OK);
    for (i = 0; i < 3000; i++) {
        uint32_t rank = word() % 1000, what = word() % 100, pushes = i / 500 % 2 ? 30 : 60;
        memcpy(after, before, sizeof after);
        if (what < pushes) card_tree_push(after, WORDS, ORDER, LEVELS, rank, tag++, 1);
        else if (what < 90) card_tree_pop(after, WORDS, ORDER, LEVELS, out, 3);
        else card_tree_replace(after, WORDS, ORDER, LEVELS, rank, tag++, 1, out, 3);
        cut_off();
        memcpy(before, after, sizeof before);
    }
    must("some cuts are seen by the check, and some are not", passed > 100 && broken > 100);
    return failed;
}
