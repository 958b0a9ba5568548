/*
 * How many bytes of stack each call takes, measured: what lies below the stack pointer is painted, the call is made, and what is no
 * longer painted is counted. The most of many calls is written, on the deepest shapes, stores full and empty, sound and spoilt.
 */
#include "card.h"
#include "random.h"
#include <stdio.h>

#if defined __x86_64__
#define STACK_POINTER(p) __asm__ volatile("mov %%rsp, %0" : "=r"(p))
#elif defined __riscv
#define STACK_POINTER(p) __asm__ volatile("mv %0, sp" : "=r"(p))
#else
#define STACK_POINTER(p) __asm__ volatile("mov %0, sp" : "=r"(p))
#endif
#define DEEP 8192 /* words that are painted */
#define PAINT 0x5ca1ab1eu

/* A call, and the bytes that it took. */
#define TOOK(name, call)                                            \
    do {                                                            \
        volatile uint32_t *top, *p;                                 \
        STACK_POINTER(top);                                         \
        for (p = top - DEEP; p < top; p++) *p = PAINT;              \
        (void)(call);                                               \
        for (p = top - DEEP; p < top && *p == PAINT; p++) continue; \
        took(#name, (uint32_t)((char *)top - (char *)p));           \
    } while (0)

static struct row {
    const char *name;
    uint32_t bytes;
} rows[96];

static int same(const char *a, const char *b) {
    while (*a != 0 && *a == *b) a++, b++;
    return *a == *b;
}

/* Rows stand in the order in which their calls were first made, and keep the most. */
static void took(const char *name, uint32_t bytes) {
    struct row *row = rows;
    while (row->name != NULL && !same(row->name, name)) row++;
    row->name = name;
    if (bytes > row->bytes) row->bytes = bytes;
}

#define TREE CARD_TREE_WORDS(2, 15), 2, 15
#define OUT out, CARD_OUT_WORDS

static uint32_t store[CARD_PACKED_WORDS(1, 17)], second[CARD_TREE_WORDS(2, 15)], state[CARD_FAIR_WORDS], mark[1], out[3];
static uint64_t bits[CARD_PORTS_BITS(2, 16)];
static struct card_record records[CARD_RECORDS(15)];
static struct card_cluster_record stages[CARD_RECORDS(15)];

/* Now and then a word is spoilt, and set right again after the calls. */
static uint32_t spoilt, was;
static void spoil(uint32_t words) {
    spoilt = word() % (word() % 2 ? words : 16);
    was = store[spoilt];
    if (word() % 4 == 0) store[spoilt] = word() % 8;
}

static void tree(void) {
    uint32_t i;
    TOOK(card_tree_words, card_tree_words(2, 15));
    TOOK(card_tree_clear, card_tree_clear(store, TREE));
    while (card_tree_push(store, TREE, word() >> 1, 1, 1) == CARD_OK) continue;
    TOOK(card_tree_check, card_tree_check(store, TREE, OUT));
    TOOK(card_tree_mend, card_tree_mend(store, CARD_TREE_WORDS(2, 15), second, TREE, OUT));
    for (i = 0; i < 200; i++) {
        uint32_t rank = word() >> (i % 2 ? 1 : 12);
        spoil(CARD_TREE_WORDS(2, 15));
        TOOK(card_tree_push, card_tree_push(store, TREE, rank, i, 1));
        TOOK(card_tree_pop, card_tree_pop(store, TREE, OUT));
        TOOK(card_tree_push, card_tree_push(store, TREE, rank, i, 1));
        TOOK(card_tree_replace, card_tree_replace(store, TREE, rank, i, 1, OUT));
        TOOK(card_tree_held, card_tree_held(store, TREE, OUT));
        store[spoilt] = was;
    }
    TOOK(card_tree_check, card_tree_check(store, TREE, OUT));
}

static void fair(void) {
    uint32_t i, flow, bytes;
    TOOK(card_fair_words, card_fair_words());
    card_tree_clear(store, TREE);
    TOOK(card_fair_reset, card_fair_reset(state, CARD_FAIR_WORDS, store, TREE));
    /* the lightest steps, so that the clock is not spent before the tree is full */
    for (i = 0; card_fair_push(state, CARD_FAIR_WORDS, store, TREE, i % 64, 1024, 1, 1 + word() % 64) == CARD_OK;) i++;
    for (i = 0; i < 200; i++) {
        flow = word() % 66;
        bytes = word() % 9300;
        TOOK(card_fair_push, card_fair_push(state, CARD_FAIR_WORDS, store, TREE, flow, 1 + i, 1, bytes));
        TOOK(card_fair_pop, card_fair_pop(state, CARD_FAIR_WORDS, store, TREE, OUT));
        TOOK(card_fair_push, card_fair_push(state, CARD_FAIR_WORDS, store, TREE, flow, 1024, 1, 1));
        TOOK(card_fair_held, card_fair_held(store, TREE, OUT));
        TOOK(card_fair_reset, card_fair_reset(state, CARD_FAIR_WORDS, store, TREE));
    }
}

#define HEAP CARD_CLUSTER_WORDS(places, levels), places, levels

static void cluster(uint32_t places, uint32_t levels) {
    uint32_t i, rank;
    TOOK(card_cluster_words, card_cluster_words(places, levels));
    TOOK(card_cluster_clear, card_cluster_clear(store, HEAP));
    while (card_cluster_push(store, HEAP, word() >> 1, 1, 1) == CARD_OK) continue;
    for (i = 0; i < 200; i++) {
        rank = word() >> (i % 2 ? 1 : 12);
        spoil(1000);
        TOOK(card_cluster_push, card_cluster_push(store, HEAP, rank, i, 1));
        TOOK(card_cluster_pop, card_cluster_pop(store, HEAP, OUT));
        TOOK(card_cluster_push, card_cluster_push(store, HEAP, rank, i, 1));
        TOOK(card_cluster_replace, card_cluster_replace(store, HEAP, rank, i, 1, OUT));
        TOOK(card_cluster_held, card_cluster_held(store, HEAP, OUT));
        store[spoilt] = was;
    }
}

#define FOREST CARD_PACKED_WORDS(heaps, levels), heaps, levels

static void packed(uint32_t heaps, uint32_t levels) {
    uint32_t i, rank, heap;
    TOOK(card_packed_words, card_packed_words(heaps, levels));
    TOOK(card_packed_clear, card_packed_clear(store, FOREST));
    for (heap = 0; heap < heaps; heap++)
        while (card_packed_push(store, FOREST, heap, word() >> 1, 1, 1) == CARD_OK) continue;
    for (i = 0; i < 300; i++) {
        rank = word() >> (i % 2 ? 1 : 12);
        heap = word() % (heaps + 1);
        spoil(CARD_PACKED_WORDS(heaps, levels));
        TOOK(card_packed_push, card_packed_push(store, FOREST, heap, rank, i, 1));
        TOOK(card_packed_pop, card_packed_pop(store, FOREST, heap, OUT));
        TOOK(card_packed_push, card_packed_push(store, FOREST, heap, rank, i, 1));
        TOOK(card_packed_replace, card_packed_replace(store, FOREST, heap, rank, i, 1, OUT));
        TOOK(card_packed_held, card_packed_held(store, FOREST, heap, OUT));
        store[spoilt] = was;
    }
}

#define POOL bits, CARD_BUCKET_BITS(2), store, CARD_BUCKET_WORDS(2, 1000), 2, 1000

static void bucket(void) {
    uint32_t i, rank;
    TOOK(card_bucket_bits, card_bucket_bits(3));
    TOOK(card_bucket_words, card_bucket_words(3, 1000));
    TOOK(card_bucket_clear, card_bucket_clear(POOL));
    for (i = 0; i < 500; i++) card_bucket_push(POOL, word() % 4096, 1, 1);
    for (i = 0; i < 300; i++) {
        rank = word() % (i % 2 ? 4096 : 64);
        spoil(CARD_BUCKET_WORDS(2, 1000));
        TOOK(card_bucket_push, card_bucket_push(POOL, rank, i, 1));
        TOOK(card_bucket_pop, card_bucket_pop(POOL, OUT));
        TOOK(card_bucket_push, card_bucket_push(POOL, rank, i, 1));
        TOOK(card_bucket_replace, card_bucket_replace(POOL, rank, i, 1, OUT));
        TOOK(card_bucket_held, card_bucket_held(POOL, OUT));
        store[spoilt] = was;
    }
}

#define HALL bits, CARD_PORTS_BITS(2, 16), store, CARD_PORTS_WORDS(2, 1000, 16), 2, 1000, 16

static void ports(void) {
    uint32_t i, rank, port, limits[CARD_LIMIT_WORDS(16)];
    for (i = 0; i < 16; i++) {
        limits[2 * i] = 20;
        limits[2 * i + 1] = 200;
    }
    TOOK(card_ports_bits, card_ports_bits(3, 16));
    TOOK(card_ports_words, card_ports_words(3, 1000, 16));
    TOOK(card_ports_clear, card_ports_clear(HALL, limits, CARD_LIMIT_WORDS(16)));
    for (i = 0; i < 500; i++) card_ports_push(HALL, i % 16, word() % 4096, 1, 1);
    for (i = 0; i < 300; i++) {
        rank = word() % (i % 2 ? 4096 : 64);
        port = word() % 17;
        spoil(CARD_PORTS_WORDS(2, 1000, 16));
        TOOK(card_ports_push, card_ports_push(HALL, port, rank, i, 1));
        TOOK(card_ports_pop, card_ports_pop(HALL, port, OUT));
        TOOK(card_ports_push, card_ports_push(HALL, port, rank, i, 1));
        TOOK(card_ports_replace, card_ports_replace(HALL, port, rank, i, 1, OUT));
        TOOK(card_ports_held, card_ports_held(HALL, port, OUT));
        store[spoilt] = was;
    }
}

#define CLOCKED store, TREE, records, CARD_RECORDS(15), mark, CARD_MARK_WORDS
#define STAGED store, HEAP, stages, CARD_RECORDS(15)

static void clocked(void) {
    uint32_t i, rank;
    TOOK(card_clocked_clear, card_clocked_clear(CLOCKED));
    for (i = 0; i < 60000; i++) card_clocked_cycle(CLOCKED, CARD_PUSH, word() >> 1, 1, 1, OUT);
    for (i = 0; i < 300; i++) {
        rank = word() >> (i % 2 ? 1 : 12);
        TOOK(card_clocked_cycle, card_clocked_cycle(CLOCKED, i % 7 % 4, rank, i, 1, OUT));
        if (i % 20 == 0) TOOK(card_clocked_drain, card_clocked_drain(CLOCKED, i, OUT));
        TOOK(card_clocked_held, card_clocked_held(store, TREE, OUT));
    }
}

static void clocked_cluster(uint32_t places, uint32_t levels) {
    uint32_t i, rank;
    TOOK(card_clocked_cluster_clear, card_clocked_cluster_clear(STAGED));
    for (i = 0; i < 5000; i++) card_clocked_cluster_cycle(STAGED, CARD_PUSH, word() >> 1, 1, 1, OUT);
    for (i = 0; i < 300; i++) {
        rank = word() >> (i % 2 ? 1 : 12);
        TOOK(card_clocked_cluster_cycle, card_clocked_cluster_cycle(STAGED, i % 7 % 4, rank, i, 1, OUT));
        if (i % 20 == 0) TOOK(card_clocked_cluster_drain, card_clocked_cluster_drain(STAGED, i, OUT));
        TOOK(card_clocked_cluster_held, card_clocked_cluster_held(store, HEAP, OUT));
    }
}

#define LINES CARD_LINES_WORDS(count, places), kind, count, places

/* Half full, and filled to the brim. */
static void lines(uint32_t kind, uint32_t count, uint32_t places) {
    uint32_t i, rank;
    TOOK(card_lines_words, card_lines_words(kind, count, places));
    TOOK(card_lines_clear, card_lines_clear(store, LINES));
    for (i = 0; i < count * places; i++) {
        rank = word() & 0xffffu;
        card_lines_push(store, LINES, rank, 1, 1);
        if (i % (count * places / 100) != 0) continue;
        spoil(CARD_LINES_WORDS(count, places));
        TOOK(card_lines_push, card_lines_push(store, LINES, rank / 2, i, 1));
        TOOK(card_lines_pop, card_lines_pop(store, LINES, OUT));
        TOOK(card_lines_replace, card_lines_replace(store, LINES, rank, i, 1, OUT));
        TOOK(card_lines_held, card_lines_held(store, LINES, OUT));
        store[spoilt] = was;
    }
}

static void clocked_lines(uint32_t kind, uint32_t count, uint32_t places) {
    uint32_t i, rank;
    TOOK(card_lines_clock_clear, card_lines_clock_clear(store, LINES, records, CARD_LINES_RECORDS));
    for (i = 0; i < count * places; i++) {
        rank = word() & 0xffffu;
        card_lines_clock_cycle(store, LINES, records, CARD_LINES_RECORDS, CARD_PUSH, rank, 1, 1, OUT);
        if (i % (count * places / 100) != 0) continue;
        TOOK(card_lines_clock_cycle, card_lines_clock_cycle(store, LINES, records, CARD_LINES_RECORDS, i % 7 % 4, rank, i, 1, OUT));
        TOOK(card_lines_clock_cycle, card_lines_clock_cycle(store, LINES, records, CARD_LINES_RECORDS, CARD_REPLACE, rank / 2, i, 1, OUT));
        TOOK(card_lines_clock_drain, card_lines_clock_drain(store, LINES, records, CARD_LINES_RECORDS, i % 2, OUT));
        TOOK(card_lines_clock_held, card_lines_clock_held(store, LINES, OUT));
    }
}

int main(void) {
    struct row *row;
    /* heaps with many levels, and with many places in a node; packed ones with many levels, and many side by side */
    const uint32_t many = 11, wide = 16, one = 1, all = 256;
    TOOK(card_version, card_version());
    tree();
    fair();
    cluster(2, many);
    cluster(wide, 8);
    packed(one, 17);
    packed(all, 9);
    bucket();
    ports();
    clocked();
    clocked_cluster(2, many);
    clocked_cluster(wide, 8);
    lines(1, 8, 1024);
    lines(2, 8, 1024);
    lines(2, 512, 4);
    clocked_lines(1, 8, 1024);
    clocked_lines(2, 512, 4);
    for (row = rows; row->name != NULL; row++) printf("%s %u\n", row->name, (unsigned)row->bytes);
    return 0;
}
