/* The clocked cluster heap from C: NULL with length 0, records in the caller's own memory, and operations in every cycle. */
#include "card.h"
#include <stdio.h>

static int failed = 0;

static void same(const char *what, unsigned long got, unsigned long expected) {
    if (got == expected) return;
    printf("%s: %lu, expected %lu\n", what, got, expected);
    failed = 1;
}

static void record(const char *what, struct card_cluster_record r, uint32_t kind, uint32_t node, uint32_t place, uint32_t rank, uint32_t tag,
                   uint32_t length) {
    same(what, r.kind, kind);
    same(what, r.node, node);
    same(what, r.place, place);
    same(what, r.rank, rank);
    same(what, r.tag, tag);
    same(what, r.length, length);
}

#define STORE CARD_CLUSTER_WORDS(2, 2)

static uint32_t store[STORE], out[CARD_OUT_WORDS];
/* one of the shape, and one past it */
static struct card_cluster_record records[CARD_RECORDS(2) + 1];

static uint32_t cycle(uint32_t request, uint32_t rank) {
    return card_clocked_cluster_cycle(store, STORE, 2, 2, records, CARD_RECORDS(2) + 1, request, rank, 10 * rank, 100 * rank, out, CARD_OUT_WORDS);
}

int main(void) {
    const struct card_cluster_record past = {9, 8, 7, 6, 5, 4}, none = {4, 0, 0, 0, 0, 0};
    const uint32_t bad = CARD_BAD_SHAPE;
    uint32_t places, levels;
    records[0] = past;
    records[1] = past;
    for (places = 2; places <= 16; places++)
        for (levels = 1; card_cluster_words(places, levels) != 0; levels++)
            same("words", card_cluster_words(places, levels), CARD_CLUSTER_WORDS(places, levels));
    same("words of three nodes of ten", STORE, 30);

    /* no store, no records, no room for the answer */
    same("clear", card_clocked_cluster_clear(NULL, 0, 2, 2, records, 1), bad);
    same("clear without records", card_clocked_cluster_clear(store, STORE, 2, 2, NULL, 0), bad);
    same("cycle", card_clocked_cluster_cycle(NULL, 0, 2, 2, records, 1, CARD_IDLE, 0, 0, 0, out, 3), bad);
    same("drain", card_clocked_cluster_drain(NULL, 0, 2, 2, records, 1, 9, out, 2), bad);
    same("held", card_clocked_cluster_held(NULL, 0, 2, 2, out, 1), bad);
    same("a heap of one level has no records", card_clocked_cluster_clear(store, STORE, 2, 1, NULL, 0), CARD_OK);
    same("cycle", card_clocked_cluster_cycle(store, STORE, 2, 1, NULL, 0, CARD_PUSH, 5, 50, 64, out, 3), CARD_OK);
    same("cycle", card_clocked_cluster_cycle(store, STORE, 2, 1, NULL, 0, CARD_POP, 0, 0, 0, out, 3), CARD_OK);
    same("what came out", out[2], 64);

    same("clear", card_clocked_cluster_clear(store, STORE, 2, 2, records, CARD_RECORDS(2) + 1), CARD_OK);
    record("a record cleared", records[0], 0, 0, 0, 0, 0, 0);
    same("cycle", card_clocked_cluster_cycle(store, STORE, 2, 2, records, 1, CARD_IDLE, 0, 0, 0, NULL, 0), bad);
    same("drain", card_clocked_cluster_drain(store, STORE, 2, 2, records, 1, 9, NULL, 0), bad);
    same("held", card_clocked_cluster_held(store, STORE, 2, 2, NULL, 0), bad);
    same("a request that is none", cycle(4, 0), bad);

    same("push", cycle(CARD_PUSH, 5), CARD_OK);
    same("push", cycle(CARD_PUSH, 3), CARD_OK);
    same("push", cycle(CARD_PUSH, 8), CARD_OK);
    record("a put on its way", records[0], 1, 0, 0, 8, 80, 800);
    same("push", cycle(CARD_PUSH, 1), CARD_OK);
    record("a put on its way", records[0], 1, 1, 0, 5, 50, 500);
    same("push without a tag", cycle(CARD_PUSH, 0), CARD_NO_TAG);
    record("a put that is done", records[0], 0, 0, 0, 0, 0, 0);

    /* a pop, and a push in the very next cycle */
    same("pop", cycle(CARD_POP, 0), CARD_OK);
    same("its rank", out[0], 1);
    same("its tag", out[1], 10);
    same("its length", out[2], 100);
    record("a gap", records[0], 2, 0, 0, 0, 0, 0);
    same("held", card_clocked_cluster_held(store, STORE, 2, 2, out, 1), CARD_OK);
    same("what is held", out[0], 3);
    same("push", cycle(CARD_PUSH, 4), CARD_OK);
    record("what was lifted goes down again", records[0], 1, 1, 0, 5, 50, 500);
    same("replace", cycle(CARD_REPLACE, 6), CARD_OK);
    same("its rank", out[0], 3);
    record("on trial", records[0], 3, 0, 1, 6, 60, 600);
    same("drain", card_clocked_cluster_drain(store, STORE, 2, 2, records, CARD_RECORDS(2) + 1, 9, out, CARD_OUT_WORDS), CARD_OK);
    same("cycles", out[0], 1);
    same("work left", out[1], 0);
    same("pop", cycle(CARD_POP, 0), CARD_OK);
    same("its rank", out[0], 4);
    same("pop", cycle(CARD_POP, 0), CARD_OK);
    same("its rank", out[0], 5);
    same("pop", cycle(CARD_POP, 0), CARD_OK);
    same("its rank", out[0], 6);
    same("pop", cycle(CARD_POP, 0), CARD_OK);
    same("its rank", out[0], 8);
    same("pop", cycle(CARD_POP, 0), CARD_EMPTY);

    records[0] = none;
    same("a kind that is none", cycle(CARD_IDLE, 0), bad);
    record("a kind that is none", records[0], 4, 0, 0, 0, 0, 0);
    record("a record past the last", records[1], 9, 8, 7, 6, 5, 4);
    return failed;
}
