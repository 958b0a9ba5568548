/* The packed heap. Slot m stands above slots 2m + heaps and 2m + heaps + 1, and the top of heap h is slot h. */
#include "plain.h"

/* The slot of a position: from the top, right where the next bit of the position is 1. */
static inline uint32_t slot_of(uint32_t heaps, uint32_t heap, uint32_t position) {
    uint32_t m = heap;
    for (uint32_t bit = 31u - (uint32_t)__builtin_clz(position); bit-- > 0;) m = 2 * m + heaps + (position >> bit & 1);
    return m;
}

/* Lower children go up until none is lower; n is the last position. */
static inline void sink(strip *slots, uint32_t heaps, uint32_t heap, uint32_t n, strip x) {
    uint32_t m = heap, position = 1;
    while (2 * position <= n) {
        uint32_t left = 2 * m + heaps;
        uint32_t right = 2 * position < n && slots[left + 1].rank < slots[left].rank;
        if (slots[left + right].rank >= x.rank) break;
        slots[m] = slots[left + right];
        m = left + right;
        position = 2 * position + right;
    }
    slots[m] = x;
}

void plain_packed_push(uint32_t *store, uint32_t heaps, uint32_t heap, uint32_t rank, uint32_t tag, uint32_t length) {
    strip *slots = (strip *)(store + heaps), x = {rank, tag, length};
    uint32_t position = ++store[heap], m = heap;
    for (uint32_t bit = 31u - (uint32_t)__builtin_clz(position); bit-- > 0;) {
        lower_first(&slots[m], &x);
        m = 2 * m + heaps + (position >> bit & 1);
    }
    slots[m] = x;
}

void plain_packed_pop(uint32_t *store, uint32_t heaps, uint32_t heap, strip *out) {
    strip *slots = (strip *)(store + heaps), *last = slots + slot_of(heaps, heap, store[heap]), x = *last;
    *out = slots[heap];
    *last = (strip){0, 0, 0};
    if (--store[heap] != 0) sink(slots, heaps, heap, store[heap], x);
}

void plain_packed_replace(uint32_t *store, uint32_t heaps, uint32_t heap, uint32_t rank, uint32_t tag, uint32_t length, strip *out) {
    strip *slots = (strip *)(store + heaps);
    *out = slots[heap];
    sink(slots, heaps, heap, store[heap], (strip){rank, tag, length});
}
