/*
 * Plain C beside the card's library: the same rules and the same layouts (docs/RULES.md), each as short and as fast as it comes, and no
 * test for damage. One at a time a trace asks for nothing that is refused; the clocks refuse as the rules say. A function is made anew
 * for each order or number of places that is timed, so that its loops have a constant length.
 */
#ifndef PLAIN_H
#define PLAIN_H

#include <stdint.h>
#include <string.h>

typedef struct {
    uint32_t rank, tag, length;
} strip;

/*
 * The turn of an element: rank and then tag, as one number, read at once (the bench's processors have the low byte first). An empty place
 * is zeros and an element has a tag, so that with one taken off an empty place comes after every element.
 */
static inline uint64_t turn(const strip *x) {
    uint64_t both;
    memcpy(&both, x, sizeof both);
    return (both << 32 | both >> 32) - 1;
}

/* Leaves the lower rank in *a, its own on a tie, and the other in *b. */
static inline void lower_first(strip *a, strip *b) {
    strip own = *a;
    int less = b->rank < own.rank;
    *a = less ? *b : own;
    *b = less ? own : *b;
}

/* What a cycle is asked for. */
enum { IDLE, PUSH, POP, REPLACE };

/* The numbers of refusals. */
enum { DONE = 0, TOO_SOON = 3, FULL = 5, EMPTY = 6, NO_TAG = 7 };

#endif
