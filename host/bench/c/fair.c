/* Fair ranks above the tree: word 0 of the state is the clock, word 1 + f the last finish of flow f. */
#include "tree.h"

void plain_tree_push(slot *store, uint32_t order, uint32_t rank, uint32_t tag, uint32_t length);
void plain_tree_pop(slot *store, uint32_t order, strip *out);

void plain_fair_push(uint32_t *state, slot *store, uint32_t order, uint32_t flow, uint32_t weight, uint32_t tag, uint32_t length) {
    uint32_t last = state[1 + flow], from = last > state[0] ? last : state[0];
    uint32_t finish = from + (length + 63) / 64 * (65536 / weight);
    state[1 + flow] = finish;
    plain_tree_push(store, order, finish, tag, length);
}

void plain_fair_pop(uint32_t *state, slot *store, uint32_t order, strip *out) {
    plain_tree_pop(store, order, out);
    state[0] = out->rank;
}
