/* The tree's slots and what is done at its nodes. The node under slot g of the store begins at slot (g + 1) * order. */
#ifndef TREE_H
#define TREE_H

#include "plain.h"

typedef struct {
    strip x;
    uint32_t count;
} slot;

/* The slot of lowest turn, leftmost where two are equal. */
static inline uint32_t lowest(const slot *store, uint32_t order, uint32_t first) {
    uint32_t best = first;
    uint64_t low = turn(&store[first].x);
    for (uint32_t at = first + 1; at < first + order; at++) {
        uint64_t own = turn(&store[at].x);
        best = own < low ? at : best;
        low = own < low ? own : low;
    }
    return best;
}

/* The slot with the smallest count, leftmost on a tie: the first empty one where there is one. */
static inline uint32_t fewest(const slot *store, uint32_t order, uint32_t first) {
    uint32_t best = first, count = store[first].count;
    for (uint32_t at = first + 1; at < first + order; at++) {
        uint32_t own = store[at].count;
        best = own < count ? at : best;
        count = own < count ? own : count;
    }
    return best;
}

static inline void put(slot *store, uint32_t order, strip x) {
    uint32_t at = fewest(store, order, 0);
    while (store[at].count != 0) {
        lower_first(&store[at].x, &x);
        store[at].count++;
        at = fewest(store, order, (at + 1) * order);
    }
    store[at] = (slot){x, 1};
}

static inline uint32_t held(const slot *store, uint32_t order) {
    uint32_t sum = 0;
    for (uint32_t j = 0; j < order; j++) sum += store[j].count;
    return sum;
}

#endif
