/* Records in the caller's own memory: what a cycle loads is in the fields of those names, a record of nothing stands, and one past the last is not touched. */
#include "card.h"
#include <stdio.h>

static int failed = 0;

static void same(const char *what, unsigned long got, unsigned long expected) {
    if (got == expected) return;
    printf("%s: %lu, expected %lu\n", what, got, expected);
    failed = 1;
}

static void record(const char *what, struct card_record r, uint32_t kind, uint32_t node, uint32_t rank, uint32_t tag, uint32_t length) {
    same(what, r.kind, kind);
    same(what, r.node, node);
    same(what, r.rank, rank);
    same(what, r.tag, tag);
    same(what, r.length, length);
}

static uint32_t store[CARD_TREE_WORDS(2, 2)], mark[CARD_MARK_WORDS], out[CARD_OUT_WORDS];
/* one of the shape, and one past it */
static struct card_record records[CARD_RECORDS(2) + 1];

static uint32_t cycle(uint32_t request, uint32_t rank) {
    return card_clocked_cycle(store, CARD_TREE_WORDS(2, 2), 2, 2, records, CARD_RECORDS(2) + 1, mark, CARD_MARK_WORDS, request, rank, 10 * rank,
                              100 * rank, out, CARD_OUT_WORDS);
}

int main(void) {
    const struct card_record past = {9, 8, 7, 6, 5}, nothing = {0, 1, 2, 3, 4}, none = {4, 0, 0, 0, 0};
    records[0] = past;
    records[1] = past;
    same("clear", card_clocked_clear(store, CARD_TREE_WORDS(2, 2), 2, 2, records, CARD_RECORDS(2) + 1, mark, CARD_MARK_WORDS), CARD_OK);
    record("a record cleared", records[0], 0, 0, 0, 0, 0);
    same("push", cycle(CARD_PUSH, 5), CARD_OK);
    records[0] = nothing;
    same("push", cycle(CARD_PUSH, 3), CARD_OK);
    record("a record of nothing that is not loaded", records[0], 0, 1, 2, 3, 4);
    same("push", cycle(CARD_PUSH, 8), CARD_OK);
    record("a put on its way, over a record of nothing", records[0], 1, 0, 8, 80, 800);
    same("push", cycle(CARD_PUSH, 1), CARD_OK);
    record("a put on its way", records[0], 1, 1, 3, 30, 300);
    same("idle", cycle(CARD_IDLE, 0), CARD_OK);
    record("a put that is done", records[0], 0, 0, 0, 0, 0);
    same("pop", cycle(CARD_POP, 0), CARD_OK);
    record("a take on its way", records[0], 2, 1, 0, 0, 0);
    same("its rank", out[0], 1);
    same("drain",
         card_clocked_drain(store, CARD_TREE_WORDS(2, 2), 2, 2, records, CARD_RECORDS(2) + 1, mark, CARD_MARK_WORDS, 9, out, CARD_OUT_WORDS),
         CARD_OK);
    same("cycles", out[0], 1);
    record("a take that is done", records[0], 0, 0, 0, 0, 0);
    records[0] = none;
    same("a kind that is none", cycle(CARD_IDLE, 0), CARD_BAD_SHAPE);
    record("a kind that is none", records[0], 4, 0, 0, 0, 0);
    record("a record past the last", records[1], 9, 8, 7, 6, 5);
    return failed;
}
