/*
 * The cluster heap's nodes and what is found in them. A node is two counts and K places, and is reached by its number in the whole store:
 * under node m stand 2m + 1 and 2m + 2.
 */
#ifndef CLUSTER_H
#define CLUSTER_H

#include "plain.h"

/* a, or b where `second` is 1. */
#ifndef EITHER
#define EITHER(a, b, second) ((second) ? (b) : (a))
#endif

typedef struct {
    strip x;
    uint32_t flag;
} place;

/* The counts of left and right, and the places behind them. */
typedef struct {
    uint32_t *counts;
    place *places;
} cluster;

static inline cluster node_at(uint32_t *store, uint32_t k, uint32_t number) {
    uint32_t *words = store + number * (4 * k + 2);
    return (cluster){words, (place *)(words + 2)};
}

static inline int bottom(cluster c) { return (c.counts[0] | c.counts[1]) == 0; }

/* A place and its turn. */
typedef struct {
    uint32_t place;
    uint64_t turn;
} found;

/* The place of lowest turn, the first where two are equal. */
static inline found low(cluster c, uint32_t k) {
    found best = {0, turn(&c.places[0].x)};
    for (uint32_t j = 1; j < k; j++) {
        uint64_t own = turn(&c.places[j].x);
        best.place = (uint32_t)EITHER(best.place, j, own < best.turn);
        best.turn = own < best.turn ? own : best.turn;
    }
    return best;
}

/* The place of highest rank, the last on a tie. */
static inline uint32_t high(cluster c, uint32_t k) {
    uint32_t best = 0, most = c.places[0].x.rank;
    for (uint32_t j = 1; j < k; j++) {
        uint32_t own = c.places[j].x.rank;
        best = (uint32_t)EITHER(best, j, own >= most);
        most = own >= most ? own : most;
    }
    return best;
}

/* The first empty place; k where there is none. */
static inline uint32_t empty(cluster c, uint32_t k) {
    uint32_t best = k;
    for (uint32_t j = k; j-- > 0;) best = c.places[j].flag == 0 ? j : best;
    return best;
}

static inline uint32_t fewer(cluster c) { return c.counts[1] < c.counts[0]; }

/* A child of count not 0, and its lowest place. */
typedef struct {
    uint32_t side;
    found low;
} choice;

/* Of the children whose count is not 0 the one whose lowest has the lower rank, left on a tie. */
static inline choice lower_side(uint32_t *store, uint32_t k, uint32_t number) {
    cluster own = node_at(store, k, number);
    found left = low(node_at(store, k, 2 * number + 1), k), right = low(node_at(store, k, 2 * number + 2), k);
    uint32_t side = (own.counts[1] != 0) & ((own.counts[0] == 0) | (right.turn >> 32 < left.turn >> 32));
    return (choice){side, {(uint32_t)EITHER(left.place, right.place, side), EITHER(left.turn, right.turn, side)}};
}

/* Puts x at a node. Where all places are taken x becomes what goes on, and the answer is the child that it goes to; else 2. */
static inline uint32_t put_at(cluster c, uint32_t k, strip *x) {
    uint32_t j = empty(c, k);
    if (j < k) {
        c.places[j] = (place){*x, 1};
        return 2;
    }
    lower_first(&c.places[high(c, k)].x, x);
    uint32_t side = fewer(c);
    c.counts[side]++;
    return side;
}

static inline uint32_t rooted(uint32_t *store, uint32_t k) {
    cluster root = node_at(store, k, 0);
    uint32_t sum = root.counts[0] + root.counts[1];
    for (uint32_t j = 0; j < k; j++) sum += root.places[j].flag;
    return sum;
}

#endif
