/* The tree, one operation at a time. */
#include "tree.h"

static inline strip take(slot *store, uint32_t order) {
    uint32_t at = lowest(store, order, 0);
    strip given = store[at].x;
    while (store[at].count != 1) {
        uint32_t below = lowest(store, order, (at + 1) * order);
        store[at].x = store[below].x;
        store[at].count--;
        at = below;
    }
    store[at] = (slot){{0, 0, 0}, 0};
    return given;
}

static inline strip swap(slot *store, uint32_t order, strip x) {
    uint32_t at = lowest(store, order, 0);
    strip given = store[at].x;
    while (store[at].count != 1) {
        uint32_t below = lowest(store, order, (at + 1) * order);
        if (store[below].x.rank >= x.rank) break;
        store[at].x = store[below].x;
        at = below;
    }
    store[at].x = x;
    return given;
}

void plain_tree_push(slot *store, uint32_t order, uint32_t rank, uint32_t tag, uint32_t length) {
    strip x = {rank, tag, length};
    if (order == 2) put(store, 2, x);
    else if (order == 4) put(store, 4, x);
    else put(store, 8, x);
}

void plain_tree_pop(slot *store, uint32_t order, strip *out) {
    *out = order == 2 ? take(store, 2) : order == 4 ? take(store, 4) : take(store, 8);
}

void plain_tree_replace(slot *store, uint32_t order, uint32_t rank, uint32_t tag, uint32_t length, strip *out) {
    strip x = {rank, tag, length};
    *out = order == 2 ? swap(store, 2, x) : order == 4 ? swap(store, 4, x) : swap(store, 8, x);
}
