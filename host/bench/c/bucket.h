/* The bucket queue at a seat: where its bits, heads, tails, nodes, free link and held stand. A link is a node's number and one more. */
#ifndef BUCKET_H
#define BUCKET_H

#include "plain.h"

typedef struct {
    uint32_t tag, length, next;
} node;

typedef struct {
    uint64_t *bits;
    uint32_t *heads, *tails;
    node *nodes;
    uint32_t *first_free, *held;
} seat;

/* Where the storeys of bits begin, and how many words and ranks there are. */
static const uint32_t storey[] = {0, 1, 65};
static inline uint32_t bit_words(uint32_t storeys) { return storeys == 2 ? 65 : 4161; }
static inline uint32_t ranks(uint32_t storeys) { return storeys == 2 ? 4096 : 262144; }

/* From storey to storey as far as a word was 0. */
static inline void mark(uint64_t *bits, uint32_t storeys, uint32_t rank) {
    for (uint32_t i = storeys; i-- > 0; rank >>= 6) {
        uint64_t *word = bits + storey[i] + (rank >> 6), was = *word;
        *word = was | (uint64_t)1 << (rank & 63);
        if (was != 0) return;
    }
}

/* From storey to storey as far as a word is now 0. */
static inline void unmark(uint64_t *bits, uint32_t storeys, uint32_t rank) {
    for (uint32_t i = storeys; i-- > 0; rank >>= 6) {
        uint64_t *word = bits + storey[i] + (rank >> 6);
        *word &= ~((uint64_t)1 << (rank & 63));
        if (*word != 0) return;
    }
}

static inline uint32_t lowest_rank(const uint64_t *bits, uint32_t storeys) {
    uint32_t way = 0;
    for (uint32_t i = 0; i < storeys; i++) way = way << 6 | (uint32_t)__builtin_ctzll(bits[storey[i] + way]);
    return way;
}

/* Joins a node behind the tail of its rank. */
static inline void join(seat s, uint32_t storeys, uint32_t link, strip x) {
    uint32_t tail = s.tails[x.rank];
    s.nodes[link - 1] = (node){x.tag, x.length, 0};
    s.tails[x.rank] = link;
    if (tail != 0) {
        s.nodes[tail - 1].next = link;
    } else {
        s.heads[x.rank] = link;
        mark(s.bits, storeys, x.rank);
    }
}

/* Takes the first node of the lowest rank out: its link. */
static inline uint32_t leave(seat s, uint32_t storeys, strip *out) {
    uint32_t rank = lowest_rank(s.bits, storeys), link = s.heads[rank];
    node own = s.nodes[link - 1];
    *out = (strip){rank, own.tag, own.length};
    s.heads[rank] = own.next;
    if (own.next == 0) {
        s.tails[rank] = 0;
        unmark(s.bits, storeys, rank);
    }
    return link;
}

static inline void push(seat s, uint32_t storeys, strip x) {
    uint32_t link = *s.first_free;
    *s.first_free = s.nodes[link - 1].next;
    ++*s.held;
    join(s, storeys, link, x);
}

static inline void pop(seat s, uint32_t storeys, strip *out) {
    uint32_t link = leave(s, storeys, out);
    s.nodes[link - 1] = (node){0, 0, *s.first_free};
    *s.first_free = link;
    --*s.held;
}

/* The node that leaves is the one that is taken. */
static inline void replace(seat s, uint32_t storeys, strip x, strip *out) { join(s, storeys, leave(s, storeys, out), x); }

/* The chain of free nodes. */
static inline void chain(node *nodes, uint32_t count) {
    for (uint32_t i = 0; i < count; i++) nodes[i] = (node){0, 0, i + 2};
    nodes[count - 1].next = 0;
}

#endif
