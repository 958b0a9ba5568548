/* Check a tree's store, and mend it by the tree's own pushes. */
#include "tree.h"

/* Whether a slot is broken, by the counts under it and the rank above it. */
static inline int broken(const slot *store, uint32_t order, uint32_t slots, uint32_t at) {
    slot own = store[at];
    uint64_t sum = 0;
    if ((at + 1) * order < slots)
        for (uint32_t j = 0; j < order; j++) sum += store[(at + 1) * order + j].count;
    if (own.count == 0) return sum != 0 || own.x.rank != 0 || own.x.tag != 0 || own.x.length != 0;
    return own.count != sum + 1 || (at >= order && own.x.rank < store[at / order - 1].x.rank);
}

static inline uint32_t check(const slot *store, uint32_t order, uint32_t slots) {
    uint32_t at = 0;
    while (at < slots && !broken(store, order, slots, at)) at++;
    return at;
}

static inline uint32_t mend(const slot *from, slot *to, uint32_t order, uint32_t slots) {
    uint32_t skipped = 0;
    memset(to, 0, slots * sizeof *to);
    for (uint32_t at = 0; at < slots; at++) {
        if (from[at].count == 0) continue;
        if (from[at].x.tag == 0) skipped++;
        else put(to, order, from[at].x);
    }
    return skipped;
}

/* The first broken slot; `slots` where there is none. */
uint32_t plain_tree_check(const slot *store, uint32_t order, uint32_t slots) {
    return order == 2 ? check(store, 2, slots) : order == 4 ? check(store, 4, slots) : check(store, 8, slots);
}

/* How many were skipped. */
uint32_t plain_tree_mend(const slot *from, slot *to, uint32_t order, uint32_t slots) {
    return order == 2 ? mend(from, to, 2, slots) : order == 4 ? mend(from, to, 4, slots) : mend(from, to, 8, slots);
}
