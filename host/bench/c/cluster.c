/* The cluster heap, one operation at a time. */
#include "plain.h"

/* A walk waits for each choice, and which it is cannot be foretold: no branch. On the clock many are made at once, and a branch is no loss. */
static inline uint64_t either(uint64_t a, uint64_t b, uint64_t second) { return a ^ ((a ^ b) & -second); }
#define EITHER either

#include "cluster.h"

static inline void put(uint32_t *store, uint32_t k, strip x) {
    uint32_t number = 0, side;
    while ((side = put_at(node_at(store, k, number), k, &x)) != 2) number = 2 * number + 1 + side;
}

static inline strip take(uint32_t *store, uint32_t k) {
    cluster own = node_at(store, k, 0);
    uint32_t number = 0, j = low(own, k).place;
    strip given = own.places[j].x;
    while (!bottom(own)) {
        choice next = lower_side(store, k, number);
        number = 2 * number + 1 + next.side;
        cluster below = node_at(store, k, number);
        own.places[j].x = below.places[next.low.place].x;
        own.counts[next.side]--;
        own = below;
        j = next.low.place;
    }
    own.places[j] = (place){{0, 0, 0}, 0};
    return given;
}

static inline strip swap(uint32_t *store, uint32_t k, strip x) {
    cluster own = node_at(store, k, 0);
    uint32_t number = 0, j = low(own, k).place;
    strip given = own.places[j].x;
    while (!bottom(own)) {
        choice next = lower_side(store, k, number);
        if (next.low.turn >> 32 >= x.rank) break;
        number = 2 * number + 1 + next.side;
        cluster below = node_at(store, k, number);
        own.places[j].x = below.places[next.low.place].x;
        own = below;
        j = next.low.place;
    }
    own.places[j].x = x;
    return given;
}

void plain_cluster_push(uint32_t *store, uint32_t k, uint32_t rank, uint32_t tag, uint32_t length) {
    strip x = {rank, tag, length};
    if (k == 2) put(store, 2, x);
    else if (k == 4) put(store, 4, x);
    else if (k == 8) put(store, 8, x);
    else put(store, k, x);
}

void plain_cluster_pop(uint32_t *store, uint32_t k, strip *out) {
    *out = k == 2 ? take(store, 2) : k == 4 ? take(store, 4) : k == 8 ? take(store, 8) : take(store, k);
}

void plain_cluster_replace(uint32_t *store, uint32_t k, uint32_t rank, uint32_t tag, uint32_t length, strip *out) {
    strip x = {rank, tag, length};
    *out = k == 2 ? swap(store, 2, x) : k == 4 ? swap(store, 4, x) : k == 8 ? swap(store, 8, x) : swap(store, k, x);
}
