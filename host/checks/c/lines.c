/* Lines from C, one at a time and by cycles: NULL with length 0, the rules' store, and operations in every cycle. */
#include "card.h"
#include <stdio.h>

static int failed = 0;

static void same(const char *what, unsigned long got, unsigned long expected) {
    if (got == expected) return;
    printf("%s: %lu, expected %lu\n", what, got, expected);
    failed = 1;
}

static void record(const char *what, struct card_record r, uint32_t kind, uint32_t line, uint32_t rank, uint32_t tag, uint32_t length) {
    same(what, r.kind, kind);
    same(what, r.node, line);
    same(what, r.rank, rank);
    same(what, r.tag, tag);
    same(what, r.length, length);
}

#define STORE CARD_LINES_WORDS(2, 3)
#define PUSHED 4

static uint32_t store[STORE + 1], out[CARD_OUT_WORDS];
/* the one, and one past it */
static struct card_record records[CARD_LINES_RECORDS + 1];
static const uint32_t ranks[PUSHED] = {5, 40000, 3, 5}, tags[PUSHED] = {50, 40, 30, 51};

static uint32_t cycle(uint32_t request, uint32_t rank, uint32_t tag) {
    return card_lines_clock_cycle(store, STORE, 1, 2, 3, records, CARD_LINES_RECORDS + 1, request, rank, tag, 10 * tag, out, CARD_OUT_WORDS);
}

static void words(const char *what, const uint32_t *expected) {
    uint32_t i;
    for (i = 0; i < STORE; i++) same(what, store[i], expected[i]);
}

int main(void) {
    static const uint32_t one[STORE] = {3, 1, 3, 30, 300, 5, 50, 500, 5, 51, 510, 40000, 40, 400, 0, 0, 0, 0, 0, 0};
    static const uint32_t two[STORE] = {3, 1, 3, 30, 300, 5, 50, 500, 40000, 40, 400, 5, 51, 510, 0, 0, 0, 0, 0, 0};
    static const uint32_t left[STORE] = {0, 2, 0, 0, 0, 0, 0, 0, 0, 0, 0, 40000, 40, 400, 40000, 41, 410, 0, 0, 0};
    const struct card_record past = {9, 8, 7, 6, 5}, none = {4, 0, 0, 0, 0};
    const uint32_t bad = CARD_BAD_SHAPE;
    uint32_t i, kind;
    store[STORE] = 7;

    /* no store, no record, no room for the answer */
    same("clear", card_lines_clear(NULL, 0, 1, 2, 3), bad);
    same("push", card_lines_push(NULL, 0, 1, 2, 3, 5, 50, 500), bad);
    same("pop", card_lines_pop(NULL, 0, 1, 2, 3, out, 3), bad);
    same("replace", card_lines_replace(NULL, 0, 1, 2, 3, 5, 50, 500, out, 3), bad);
    same("held", card_lines_held(NULL, 0, 1, 2, 3, out, 1), bad);
    same("pop", card_lines_pop(store, STORE, 1, 2, 3, NULL, 0), bad);
    same("replace", card_lines_replace(store, STORE, 1, 2, 3, 5, 50, 500, NULL, 0), bad);
    same("held", card_lines_held(store, STORE, 1, 2, 3, NULL, 0), bad);
    same("clear of the clocked", card_lines_clock_clear(NULL, 0, 1, 2, 3, records, 1), bad);
    same("clear without a record", card_lines_clock_clear(store, STORE, 1, 2, 3, NULL, 0), bad);
    same("cycle without a record", card_lines_clock_cycle(store, STORE, 1, 2, 3, NULL, 0, CARD_IDLE, 0, 0, 0, out, 3), bad);
    same("drain without a record", card_lines_clock_drain(store, STORE, 1, 2, 3, NULL, 0, 9, out, 2), bad);
    same("held of the clocked", card_lines_clock_held(NULL, 0, 1, 2, 3, out, 1), bad);

    /* the rules' store, of both kinds */
    for (kind = 1; kind <= 2; kind++) {
        same("clear", card_lines_clear(store, STORE + 1, kind, 2, 3), CARD_OK);
        for (i = 0; i < PUSHED; i++) same("push", card_lines_push(store, STORE + 1, kind, 2, 3, ranks[i], tags[i], 10 * tags[i]), CARD_OK);
        words("the rules' store", kind == 1 ? one : two);
        same("held", card_lines_held(store, STORE + 1, kind, 2, 3, out, 1), CARD_OK);
        same("what is held", out[0], PUSHED);
    }
    same("pop of kind 2", card_lines_pop(store, STORE, 2, 2, 3, out, 3), CARD_OK);
    same("its tag", out[1], 30);
    same("replace of kind 2", card_lines_replace(store, STORE, 2, 2, 3, 1, 10, 100, out, 3), CARD_OK);
    same("its tag, of the first line", out[1], 50);
    same("its length", out[2], 500);
    same("a rank above the last", card_lines_push(store, STORE, 1, 2, 3, 65536, 1, 1), CARD_BAD_RANK);
    same("no tag", card_lines_push(store, STORE, 1, 2, 3, 65535, 0, 1), CARD_NO_TAG);

    /* by cycles: the rules' table */
    records[0] = past;
    records[1] = past;
    same("clear", card_lines_clock_clear(store, STORE, 1, 2, 3, records, CARD_LINES_RECORDS + 1), CARD_OK);
    record("the record cleared", records[0], 0, 0, 0, 0, 0);
    for (i = 0; i < PUSHED; i++) same("push", cycle(CARD_PUSH, ranks[i], tags[i]), CARD_OK);
    record("a push on its way", records[0], 1, 0, 5, 51, 510);
    same("a push into a full line", cycle(CARD_PUSH, 6, 60), CARD_FULL);
    record("a push that is done", records[0], 0, 0, 0, 0, 0);
    words("the rules' store", one);
    same("pop", cycle(CARD_POP, 0, 0), CARD_OK);
    same("its tag", out[1], 30);
    record("a pop on its way", records[0], 2, 0, 0, 0, 0);
    same("pop", cycle(CARD_POP, 0, 0), CARD_OK);
    same("its tag", out[1], 50);
    same("replace", cycle(CARD_REPLACE, 40000, 41), CARD_OK);
    same("its tag", out[1], 51);
    same("its length", out[2], 510);
    record("a replace on its way", records[0], 3, 0, 40000, 41, 410);
    same("held", card_lines_clock_held(store, STORE, 1, 2, 3, out, 1), CARD_OK);
    same("what is held", out[0], 2);
    same("drain", card_lines_clock_drain(store, STORE, 1, 2, 3, records, CARD_LINES_RECORDS + 1, 9, out, 2), CARD_OK);
    same("cycles", out[0], 1);
    same("work left", out[1], 0);
    words("what is left", left);
    same("a request that is none", cycle(4, 0, 0), bad);
    records[0] = none;
    same("a kind that is none", cycle(CARD_IDLE, 0, 0), bad);
    record("a kind that is none", records[0], 4, 0, 0, 0, 0);
    record("a record past the one", records[1], 9, 8, 7, 6, 5);
    same("a word past the store", store[STORE], 7);
    return failed;
}
