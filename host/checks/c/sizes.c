/* The sizes as constants are the library's; arrays of them are taken, and one word or record less is not; each number has its name. */
#include "card.h"
#include <stdio.h>
#include <string.h>

static int failed = 0;

static void same(const char *what, unsigned long got, unsigned long expected) {
    if (got == expected) return;
    printf("%s: %lu, expected %lu\n", what, got, expected);
    failed = 1;
}

static uint32_t largest[CARD_TREE_WORDS(4, 8)];
static uint32_t deepest[CARD_TREE_WORDS(2, 15)];
static struct card_record records[CARD_RECORDS(15)];
static uint64_t bits[CARD_BUCKET_BITS(2)], deep_bits[CARD_BUCKET_BITS(3)];
static uint32_t words[CARD_BUCKET_WORDS(2, 4096)], deep_words[CARD_BUCKET_WORDS(3, 65536)];

int main(void) {
    static const char *const names[13] = {"ok",     "bad shape",    "damaged",   "too soon",    "bad rank",  "full",        "empty",
                                          "no tag", "no such port", "bad strip", "clock spent", "not empty", "no such heap"};
    uint32_t mark[CARD_MARK_WORDS], out[CARD_OUT_WORDS], order, levels, storeys, nodes;
    same("version", card_version(), CARD_VERSION);
    same("bits of a length", 8 * sizeof(card_len), 64);
    same("words of a state", card_fair_words(), CARD_FAIR_WORDS);
    for (order = 2; order <= 8; order *= 2)
        for (levels = 1; card_tree_words(order, levels) != 0; levels++)
            same("words of a tree", CARD_TREE_WORDS(order, levels), card_tree_words(order, levels));
    for (storeys = 2; storeys <= 3; storeys++) {
        for (nodes = 1; nodes <= 65536; nodes++)
            same("words of a bucket queue", CARD_BUCKET_WORDS(storeys, nodes), card_bucket_words(storeys, nodes));
        same("bits of a bucket queue", CARD_BUCKET_BITS(storeys), card_bucket_bits(storeys));
    }
    for (order = 1; order <= 512; order *= 2)
        for (levels = 1; levels <= 1024; levels++) {
            same("words of lines of kind 1", CARD_LINES_WORDS(order, levels), card_lines_words(1, order, levels));
            same("words of lines of kind 2", CARD_LINES_WORDS(order, levels), card_lines_words(2, order, levels));
        }
    same("lines of kind 0", card_lines_words(0, 1, 1), 0);
    same("lines of kind 3", card_lines_words(3, 1, 1), 0);
    same("three lines", card_lines_words(1, 3, 1), 0);
    same("1024 lines", card_lines_words(2, 1024, 1), 0);
    same("lines of 1025 places", card_lines_words(2, 1, 1025), 0);
    same("slots of order 4, levels 8", sizeof largest / sizeof *largest, 4 * 87380);
    same("order 4, levels 9", card_tree_words(4, 9), 0);
    same("order 2, levels 16", card_tree_words(2, 16), 0);
    same("order 8, levels 6", card_tree_words(8, 6), 0);
    same("order 3", card_tree_words(3, 1), 0);
    same("levels 0", card_tree_words(2, 0), 0);
    same("no nodes", card_bucket_words(2, 0), 0);
    same("65537 nodes", card_bucket_words(2, 65537), 0);
    same("65537 nodes, three storeys", card_bucket_words(3, 65537), 0);
    same("one storey", card_bucket_words(1, 3), 0);
    same("bits of four storeys", card_bucket_bits(4), 0);

    same("clear", card_tree_clear(largest, CARD_TREE_WORDS(4, 8), 4, 8), CARD_OK);
    same("clear of a short store", card_tree_clear(largest, CARD_TREE_WORDS(4, 8) - 1, 4, 8), CARD_BAD_SHAPE);
    same("clear of a bucket queue", card_bucket_clear(bits, CARD_BUCKET_BITS(2), words, CARD_BUCKET_WORDS(2, 4096), 2, 4096), CARD_OK);
    same("clear of the largest bucket queue",
         card_bucket_clear(deep_bits, CARD_BUCKET_BITS(3), deep_words, CARD_BUCKET_WORDS(3, 65536), 3, 65536), CARD_OK);
    same("a push of the last rank",
         card_bucket_push(deep_bits, CARD_BUCKET_BITS(3), deep_words, CARD_BUCKET_WORDS(3, 65536), 3, 65536, 262143, 1, 1500), CARD_OK);
    same("clear with a word less",
         card_bucket_clear(deep_bits, CARD_BUCKET_BITS(3) - 1, deep_words, CARD_BUCKET_WORDS(3, 65536), 3, 65536), CARD_BAD_SHAPE);
    same("clear of a clocked tree",
         card_clocked_clear(deepest, CARD_TREE_WORDS(2, 15), 2, 15, records, CARD_RECORDS(15), mark, CARD_MARK_WORDS), CARD_OK);
    same("cycle",
         card_clocked_cycle(deepest, CARD_TREE_WORDS(2, 15), 2, 15, records, CARD_RECORDS(15), mark, CARD_MARK_WORDS, CARD_PUSH,
                            5, 50, 1500, out, CARD_OUT_WORDS),
         CARD_OK);
    same("a push with tag 0",
         card_tree_push(largest, CARD_TREE_WORDS(4, 8), 4, 8, 5, 0, 1500), CARD_NO_TAG);
    same("a push of rank 4096 with tag 0",
         card_bucket_push(bits, CARD_BUCKET_BITS(2), words, CARD_BUCKET_WORDS(2, 4096), 2, 4096, 4096, 0, 1500), CARD_BAD_RANK);
    same("a push of rank 7 with tag 0",
         card_bucket_push(bits, CARD_BUCKET_BITS(2), words, CARD_BUCKET_WORDS(2, 4096), 2, 4096, 7, 0, 1500), CARD_NO_TAG);
    same("few records",
         card_clocked_clear(deepest, CARD_TREE_WORDS(2, 15), 2, 15, records, CARD_RECORDS(15) - 1, mark, CARD_MARK_WORDS),
         CARD_BAD_SHAPE);

    for (order = 0; order < 13; order++) same(names[order], (unsigned long)strcmp(card_name(order), names[order]), 0);
    same("a number that there is not", (unsigned long)strcmp(card_name(13), "no such number"), 0);
    return failed;
}
