/*
 * A fixed number of calls of each kind on fixed sound stores, for callgrind to count (../src/budget.rs). Each function here is one row of
 * the budget: it makes one call of the library each time, so that what callgrind says of the calls from it is that row's. What fills a store
 * is called from elsewhere. 4,000 elements are held.
 */
#include "card.h"
#include "random.h"
#include <stdio.h>
#include <stdlib.h>

/* A function of its own, under its own name, whatever the compiler would like. */
#define ROW __attribute__((noinline, noclone)) void

#define HELD 4000u
#define TURNS 200u
#define NODES 4096u
#define PORTS 5u
#define RANKS 4096u

static uint32_t rank, tag = 1, out[CARD_OUT_WORDS];

static void good(uint32_t number) {
    if (number == CARD_OK) return;
    printf("refused: %s\n", card_name(number));
    exit(1);
}

/* The same elements for each queue, so that its row does not hang on those before it. */
static void begin(void) {
    seed = 20240607u;
    tag = 1;
}

/* The next element, at ranks below `below`. */
static void element(uint32_t below) {
    rank = word() % below;
    tag++;
}

/* Push, pop and replace of a queue of four arguments of shape: pops and pushes in turn, then replaces. */
#define OPERATIONS(name, call, shape, below)                                          \
    ROW name##_push(void) { good(card_##call##_push(shape, rank, tag, 64)); }         \
    ROW name##_pop(void) { good(card_##call##_pop(shape, out, 3)); }                  \
    ROW name##_replace(void) { good(card_##call##_replace(shape, rank, tag, 64, out, 3)); } \
    static void name(void) {                                                          \
        begin();                                                                      \
        for (uint32_t i = 0; i < HELD; i++) {                                         \
            element(below);                                                           \
            good(card_##call##_push(shape, rank, tag, 64));                           \
        }                                                                             \
        for (uint32_t i = 0; i < TURNS; i++) {                                        \
            name##_pop();                                                             \
            element(below);                                                           \
            name##_push();                                                            \
        }                                                                             \
        for (uint32_t i = 0; i < TURNS; i++) {                                        \
            element(below);                                                           \
            name##_replace();                                                         \
        }                                                                             \
    }

static uint32_t tree_2_words[CARD_TREE_WORDS(2u, 11u)], tree_4_words[CARD_TREE_WORDS(4u, 6u)], tree_8_words[CARD_TREE_WORDS(8u, 4u)];
#define TREE_2 tree_2_words, CARD_TREE_WORDS(2u, 11u), 2, 11
#define TREE_4 tree_4_words, CARD_TREE_WORDS(4u, 6u), 4, 6
#define TREE_8 tree_8_words, CARD_TREE_WORDS(8u, 4u), 8, 4
OPERATIONS(tree_2, tree, TREE_2, 1000000)
OPERATIONS(tree_4, tree, TREE_4, 1000000)
OPERATIONS(tree_8, tree, TREE_8, 1000000)

static uint32_t cluster_words[CARD_CLUSTER_WORDS(4u, 10u)];
#define CLUSTER cluster_words, CARD_CLUSTER_WORDS(4u, 10u), 4, 10
OPERATIONS(cluster_4, cluster, CLUSTER, 1000000)

static uint32_t packed_words[CARD_PACKED_WORDS(1u, 12u)];
#define PACKED packed_words, CARD_PACKED_WORDS(1u, 12u), 1, 12, 0
OPERATIONS(packed, packed, PACKED, 1000000)

static uint32_t line_words[CARD_LINES_WORDS(64u, 64u)];
#define LINES line_words, CARD_LINES_WORDS(64u, 64u), 2, 64, 64
OPERATIONS(lines, lines, LINES, 1000000)

static uint64_t bits_2[CARD_BUCKET_BITS(2)], bits_3[CARD_BUCKET_BITS(3)];
static uint32_t words_2[CARD_BUCKET_WORDS(2u, NODES)], words_3[CARD_BUCKET_WORDS(3u, NODES)];
#define BUCKET_2 bits_2, CARD_BUCKET_BITS(2), words_2, CARD_BUCKET_WORDS(2u, NODES), 2, NODES
#define BUCKET_3 bits_3, CARD_BUCKET_BITS(3), words_3, CARD_BUCKET_WORDS(3u, NODES), 3, NODES
OPERATIONS(bucket_2, bucket, BUCKET_2, RANKS)
OPERATIONS(bucket_3, bucket, BUCKET_3, 64 * RANKS)
ROW bucket_2_clear(void) { good(card_bucket_clear(BUCKET_2)); }
ROW bucket_3_clear(void) { good(card_bucket_clear(BUCKET_3)); }

/* Each port has a fifth of what is held. */
static uint64_t port_bits[CARD_PORTS_BITS(2u, PORTS)];
static uint32_t port_words[CARD_PORTS_WORDS(2u, NODES, PORTS)], limits[CARD_LIMIT_WORDS(PORTS)];
#define ALL_PORTS port_bits, CARD_PORTS_BITS(2u, PORTS), port_words, CARD_PORTS_WORDS(2u, NODES, PORTS), 2, NODES, PORTS
#define PORT ALL_PORTS, tag % PORTS
ROW ports_clear(void) {
    for (uint32_t p = 0; p < PORTS; p++) {
        limits[2 * p] = NODES / 10;
        limits[2 * p + 1] = NODES;
    }
    good(card_ports_clear(ALL_PORTS, limits, CARD_LIMIT_WORDS(PORTS)));
}
OPERATIONS(ports, ports, PORT, RANKS)

/* The check of a full store, 5,460 slots, and its mending. */
static uint32_t mended_words[CARD_TREE_WORDS(4u, 6u)];
ROW tree_4_check(void) { good(card_tree_check(TREE_4, out, 2)); }
ROW tree_4_mend(void) { good(card_tree_mend(tree_4_words, CARD_TREE_WORDS(4u, 6u), mended_words, CARD_TREE_WORDS(4u, 6u), 4, 6, out, 1)); }
static void full_store(void) {
    begin();
    do element(1000000);
    while (card_tree_push(TREE_4, rank, tag, 64) == CARD_OK);
    tree_4_check();
    tree_4_mend();
}

/* Fair ranks of 64 flows. */
static uint32_t fair_state[CARD_FAIR_WORDS];
#define FAIR fair_state, CARD_FAIR_WORDS, TREE_4
static void fair_once(void) { good(card_fair_push(FAIR, tag % 64, 1 + rank % 1024, tag, 1500)); }
ROW fair_4_push(void) { good(card_fair_push(FAIR, tag % 64, 1 + rank % 1024, tag, 1500)); }
ROW fair_4_pop(void) { good(card_fair_pop(FAIR, out, 3)); }
static void fair_4(void) {
    begin();
    good(card_tree_clear(TREE_4));
    for (uint32_t i = 0; i < HELD; i++) {
        element(1000000);
        fair_once();
    }
    for (uint32_t i = 0; i < TURNS; i++) {
        fair_4_pop();
        element(1000000);
        fair_4_push();
    }
}

/* The clocked tree: any request, some of them too soon, and idle cycles with nothing pending. */
static struct card_record records[CARD_RECORDS(6)];
static uint32_t request, mark;
#define CYCLE(request) card_clocked_cycle(TREE_4, records, CARD_RECORDS(6), &mark, 1, request, rank, tag, 64, out, 3)
ROW clocked_4_cycle(void) { CYCLE(request); }
ROW clocked_4_idle(void) { good(CYCLE(CARD_IDLE)); }
static void clocked_4(void) {
    begin();
    static const uint32_t kinds[10] = {0, 0, 1, 1, 1, 2, 2, 2, 3, 3};
    good(card_clocked_clear(TREE_4, records, CARD_RECORDS(6), &mark, 1));
    for (uint32_t i = 0; i < HELD; i++) {
        element(1000000);
        good(CYCLE(CARD_PUSH));
    }
    for (uint32_t i = 0; i < TURNS; i++) {
        element(2000000);
        request = kinds[word() % 10];
        clocked_4_cycle();
    }
    good(card_clocked_drain(TREE_4, records, CARD_RECORDS(6), &mark, 1, 6, out, 2));
    for (uint32_t i = 0; i < TURNS; i++) clocked_4_idle();
}

/* The clocked cluster heap: an operation in every cycle, of each kind and of any, and idle cycles with nothing pending. */
static struct card_cluster_record stages[CARD_RECORDS(10)];
#define TURN(request) good(card_clocked_cluster_cycle(CLUSTER, stages, CARD_RECORDS(10), request, rank, tag, 64, out, 3))
ROW clocked_cluster_push(void) { TURN(CARD_PUSH); }
ROW clocked_cluster_pop(void) { TURN(CARD_POP); }
ROW clocked_cluster_replace(void) { TURN(CARD_REPLACE); }
ROW clocked_cluster_cycle(void) { TURN(request); }
ROW clocked_cluster_idle(void) { TURN(CARD_IDLE); }
static void clocked_cluster(void) {
    begin();
    good(card_clocked_cluster_clear(CLUSTER, stages, CARD_RECORDS(10)));
    for (uint32_t i = 0; i < HELD - TURNS; i++) {
        element(1000000);
        TURN(CARD_PUSH);
    }
    for (uint32_t i = 0; i < TURNS; i++) {
        element(1000000);
        clocked_cluster_push();
    }
    for (uint32_t i = 0; i < TURNS; i++) clocked_cluster_pop();
    for (uint32_t i = 0; i < TURNS; i++) {
        element(2000000);
        clocked_cluster_replace();
    }
    for (uint32_t i = 0; i < TURNS; i++) {
        element(2000000);
        request = word() % 4;
        clocked_cluster_cycle();
    }
    good(card_clocked_cluster_drain(CLUSTER, stages, CARD_RECORDS(10), 10, out, 2));
    for (uint32_t i = 0; i < TURNS; i++) clocked_cluster_idle();
}

/* Lines on the clock, as the clocked cluster heap: any request, and idle cycles with nothing pending. */
#define LINE_TURN(request) good(card_lines_clock_cycle(LINES, records, 1, request, rank, tag, 64, out, 3))
ROW clocked_lines_cycle(void) { LINE_TURN(request); }
ROW clocked_lines_idle(void) { LINE_TURN(CARD_IDLE); }
static void clocked_lines(void) {
    begin();
    good(card_lines_clock_clear(LINES, records, 1));
    for (uint32_t i = 0; i < HELD - TURNS; i++) {
        element(1000000);
        LINE_TURN(CARD_PUSH);
    }
    for (uint32_t i = 0; i < TURNS; i++) {
        element(2000000);
        request = word() % 4;
        clocked_lines_cycle();
    }
    good(card_lines_clock_drain(LINES, records, 1, 1, out, 2));
    for (uint32_t i = 0; i < TURNS; i++) clocked_lines_idle();
}

int main(void) {
    bucket_2_clear();
    bucket_3_clear();
    ports_clear();
    tree_2();
    tree_4();
    tree_8();
    full_store();
    fair_4();
    cluster_4();
    packed();
    lines();
    bucket_2();
    bucket_3();
    ports();
    clocked_4();
    clocked_cluster();
    clocked_lines();
    return 0;
}
