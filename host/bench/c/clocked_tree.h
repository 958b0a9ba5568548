/* A cycle of the clocked tree: one pass from the root down, in which each level reads the one below before that one writes. */
#ifndef CLOCKED_TREE_H
#define CLOCKED_TREE_H

#include "tree.h"

/* In the order of the requests: a push is a put, a pop a take, a replace a swap. */
enum { NOTHING, PUT, TAKE, SWAP };

typedef struct {
    uint32_t kind, node;
    strip x;
} work;

typedef struct {
    slot *store;
    work *records;
    uint32_t order, levels, capacity, mark;
} clocked;

/* What a level's step leaves for the node below. `base` is where the level begins, so slot g stands above node g - base. */
static inline work step(slot *store, uint32_t order, uint32_t base, work now) {
    uint32_t first = base + now.node * order;
    if (now.kind == PUT) {
        uint32_t at = fewest(store, order, first);
        if (store[at].count++ == 0) {
            store[at].x = now.x;
            return (work){0};
        }
        lower_first(&store[at].x, &now.x);
        return (work){PUT, at - base, now.x};
    }
    uint32_t at = lowest(store, order, first), count = store[at].count;
    if (count != 1) {
        uint32_t below = lowest(store, order, (at + 1) * order);
        if (now.kind == TAKE || store[below].x.rank < now.x.rank) {
            store[at].x = store[below].x;
            store[at].count = count - (now.kind == TAKE);
            return (work){now.kind, at - base, now.x};
        }
    }
    store[at] = now.kind == TAKE ? (slot){{0, 0, 0}, 0} : (slot){now.x, count};
    return (work){0};
}

/* The number of the request, and the root's work. */
static inline uint32_t ask(const clocked *m, uint32_t order, uint32_t request, strip x, work *root) {
    *root = (work){0};
    if (request == IDLE) return DONE;
    if (request != PUSH && m->mark) return TOO_SOON;
    if (request != POP && x.tag == 0) return NO_TAG;
    uint32_t all = held(m->store, order);
    if (request == PUSH ? all == m->capacity : all == 0) return request == PUSH ? FULL : EMPTY;
    *root = (work){request, 0, request == POP ? (strip){0, 0, 0} : x};
    return DONE;
}

static inline uint32_t cycle(clocked *m, uint32_t order, uint32_t request, strip x, strip *out) {
    work now, left = {0};
    uint32_t number = ask(m, order, request, x, &now);
    m->mark = number == DONE && request != IDLE;
    *out = (strip){0, 0, 0};
    if (now.kind != NOTHING) {
        if (now.kind != PUT) *out = m->store[lowest(m->store, order, 0)].x;
        left = step(m->store, order, 0, now);
    }
    work *record = m->records;
    for (uint32_t level = 1, base = order; level < m->levels; level++, base = (base + 1) * order, record++) {
        if ((record->kind | left.kind) == NOTHING) continue;
        now = *record;
        *record = left;
        left = now.kind == NOTHING ? (work){0} : step(m->store, order, base, now);
    }
    return number;
}

#endif
