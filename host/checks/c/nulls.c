/* NULL with length 0: every call takes it, and refuses what it lacks; where nothing is needed nothing is lacking. */
#include "card.h"
#include <stdio.h>

static int failed = 0;

static void number(const char *what, uint32_t got, uint32_t expected) {
    if (got == expected) return;
    printf("%s: %u %s, expected %u\n", what, (unsigned)got, card_name(got), (unsigned)expected);
    failed = 1;
}

int main(void) {
    uint32_t store[CARD_TREE_WORDS(2, 1)], second[CARD_TREE_WORDS(2, 1)], words[CARD_BUCKET_WORDS(2, 1)], mark[1], out[CARD_OUT_WORDS];
    uint64_t bits[CARD_BUCKET_BITS(2)];
    const uint32_t bad = CARD_BAD_SHAPE;

    /* no store */
    number("tree clear", card_tree_clear(NULL, 0, 2, 1), bad);
    number("tree push", card_tree_push(NULL, 0, 2, 1, 5, 50, 64), bad);
    number("tree pop", card_tree_pop(NULL, 0, 2, 1, out, 3), bad);
    number("tree replace", card_tree_replace(NULL, 0, 2, 1, 5, 50, 64, out, 3), bad);
    number("tree held", card_tree_held(NULL, 0, 2, 1, out, 1), bad);
    number("tree check", card_tree_check(NULL, 0, 2, 1, out, 2), bad);
    number("bucket clear", card_bucket_clear(NULL, 0, NULL, 0, 2, 1), bad);
    number("bucket push", card_bucket_push(NULL, 0, NULL, 0, 2, 1, 5, 50, 64), bad);
    number("bucket pop", card_bucket_pop(NULL, 0, NULL, 0, 2, 1, out, 3), bad);
    number("bucket replace", card_bucket_replace(NULL, 0, NULL, 0, 2, 1, 5, 50, 64, out, 3), bad);
    number("bucket held", card_bucket_held(NULL, 0, NULL, 0, 2, 1, out, 1), bad);
    number("clocked clear", card_clocked_clear(NULL, 0, 2, 1, NULL, 0, mark, 1), bad);
    number("clocked held", card_clocked_held(NULL, 0, 2, 1, out, 1), bad);

    /* no room for the answer */
    number("tree clear", card_tree_clear(store, CARD_TREE_WORDS(2, 1), 2, 1), CARD_OK);
    number("tree push", card_tree_push(store, CARD_TREE_WORDS(2, 1), 2, 1, 5, 50, 64), CARD_OK);
    number("tree pop", card_tree_pop(store, CARD_TREE_WORDS(2, 1), 2, 1, NULL, 0), bad);
    number("tree replace", card_tree_replace(store, CARD_TREE_WORDS(2, 1), 2, 1, 5, 50, 64, NULL, 0), bad);
    number("tree held", card_tree_held(store, CARD_TREE_WORDS(2, 1), 2, 1, NULL, 0), bad);
    number("tree held", card_tree_held(store, CARD_TREE_WORDS(2, 1), 2, 1, out, 1), CARD_OK);
    number("what is held", out[0], 1);
    number("tree mend", card_tree_mend(NULL, 0, store, CARD_TREE_WORDS(2, 1), 2, 1, out, 1), bad);
    number("tree mend", card_tree_mend(store, CARD_TREE_WORDS(2, 1), NULL, 0, 2, 1, out, 1), bad);
    number("tree mend", card_tree_mend(store, CARD_TREE_WORDS(2, 1), second, CARD_TREE_WORDS(2, 1), 2, 1, NULL, 0), bad);
    number("tree mend", card_tree_mend(store, CARD_TREE_WORDS(2, 1), second, CARD_TREE_WORDS(2, 1), 2, 1, out, 1), CARD_OK);
    number("tree check", card_tree_check(second, CARD_TREE_WORDS(2, 1), 2, 1, NULL, 0), bad);
    number("tree check", card_tree_check(second, CARD_TREE_WORDS(2, 1), 2, 1, out, 2), CARD_OK);
    number("what is sound", out[0], 1);
    number("bucket clear", card_bucket_clear(bits, CARD_BUCKET_BITS(2), words, CARD_BUCKET_WORDS(2, 1), 2, 1), CARD_OK);
    number("bucket pop", card_bucket_pop(bits, CARD_BUCKET_BITS(2), words, CARD_BUCKET_WORDS(2, 1), 2, 1, NULL, 0), bad);
    number("bucket replace", card_bucket_replace(bits, CARD_BUCKET_BITS(2), words, CARD_BUCKET_WORDS(2, 1), 2, 1, 5, 50, 64, NULL, 0), bad);
    number("bucket held", card_bucket_held(bits, CARD_BUCKET_BITS(2), words, CARD_BUCKET_WORDS(2, 1), 2, 1, NULL, 0), bad);

    /* no mark */
    number("clocked clear", card_clocked_clear(store, CARD_TREE_WORDS(2, 1), 2, 1, NULL, 0, NULL, 0), bad);
    number("cycle", card_clocked_cycle(store, CARD_TREE_WORDS(2, 1), 2, 1, NULL, 0, NULL, 0, CARD_IDLE, 0, 0, 0, out, 3), bad);
    number("drain", card_clocked_drain(store, CARD_TREE_WORDS(2, 1), 2, 1, NULL, 0, NULL, 0, 9, out, 2), bad);

    /* a tree of one level has no records: none are lacking */
    number("clocked clear", card_clocked_clear(store, CARD_TREE_WORDS(2, 1), 2, 1, NULL, 0, mark, 1), CARD_OK);
    number("cycle", card_clocked_cycle(store, CARD_TREE_WORDS(2, 1), 2, 1, NULL, 0, mark, 1, CARD_PUSH, 5, 50, 64, out, 3), CARD_OK);
    number("drain", card_clocked_drain(store, CARD_TREE_WORDS(2, 1), 2, 1, NULL, 0, mark, 1, 9, out, 2), CARD_OK);
    number("cycle", card_clocked_cycle(store, CARD_TREE_WORDS(2, 1), 2, 1, NULL, 0, mark, 1, CARD_IDLE, 0, 0, 0, out, 3), CARD_OK);
    number("cycle", card_clocked_cycle(store, CARD_TREE_WORDS(2, 1), 2, 1, NULL, 0, mark, 1, CARD_POP, 0, 0, 0, out, 3), CARD_OK);
    number("what came out", out[0], 5);
    number("its tag", out[1], 50);
    number("its length", out[2], 64);
    return failed;
}
