/*
 * Priority queues for a network card: the C side of the library (libcard.a). For C99 and C++.
 *
 * Every call but the sizes answers a number: 0 where it is not refused, else
 *
 *   1 bad shape     order, places, heaps, levels, storeys, nodes, ports, limits, kind, lines or a slice's length outside
 *                   the rules
 *   2 damaged       a store or a pending record does not hold together
 *   3 too soon      a clocked tree's pop or replace just after an answered operation
 *   4 bad rank      a bucket rank above its last: 4095, or 262143 with three storeys; of lines of kind 1, 65535
 *   5 full          a push on a full queue; of lines of kind 1 a push or replace into a full line
 *   6 empty         a pop or replace on an empty queue
 *   7 no tag        a push or replace with tag 0, which stands for no strip
 *   8 no such port  a port above the last
 *   9 bad strip     fair ranks: a flow, weight or length outside the limits
 *  10 clock spent   fair ranks: a finish above 4294967295
 *  11 not empty     fair ranks: a reset while something is held
 *  12 no such heap  packed heap: the heap's number is not below the number of heaps
 *
 * A slice is a pointer and then its length in words, that of records in records. The pointer must
 * really have so many, aligned as usual; it may be NULL where the length is 0. The slices of one call must not overlap.
 * A length is a number of 64 bits on every machine (card_len), also where a pointer has 32.
 * Everything else is tested: no store's content and no number makes a call unsafe. Longer slices
 * are taken; what lies behind the words in use is neither read nor written.
 *
 * A call keeps nothing. All of a queue's state lies in the slices that the caller lends.
 *
 * `out` receives the answer: three words, rank, tag and length (pop, replace, cycle), or one word,
 * the count (held), or two words, cycles run and whether work is left (drain). A refusal writes
 * zeros, but a drain refused 2 writes the cycles already run, and 1. A mark or records that are too
 * short, a mark above 1, a record's kind above 3 and a request above 3 are refusal 1 as well; so is
 * an `out` that is too short, and then nothing at all is written.
 */
#ifndef CARD_H
#define CARD_H

#include <stddef.h>
#include <stdint.h>

#ifdef __cplusplus
extern "C" {
#endif

/* A length in words or records. On a machine of 64 bits it is what size_t is there. */
typedef uint64_t card_len;

/* The version of this header, and that of the library which is linked: where they differ, the header is not this library's. */
#define CARD_VERSION 1u
uint32_t card_version(void);

#define CARD_OK 0u
#define CARD_BAD_SHAPE 1u
#define CARD_DAMAGED 2u
#define CARD_TOO_SOON 3u
#define CARD_BAD_RANK 4u
#define CARD_FULL 5u
#define CARD_EMPTY 6u
#define CARD_NO_TAG 7u
#define CARD_NO_PORT 8u
#define CARD_BAD_STRIP 9u
#define CARD_CLOCK_SPENT 10u
#define CARD_NOT_EMPTY 11u
#define CARD_NO_HEAP 12u

#define CARD_IDLE 0u
#define CARD_PUSH 1u
#define CARD_POP 2u
#define CARD_REPLACE 3u

/* The name of a number that a call answered. */
static inline const char *card_name(uint32_t number) {
    static const char *const names[13] = {"ok",     "bad shape",    "damaged",   "too soon",    "bad rank",  "full",        "empty",
                                          "no tag", "no such port", "bad strip", "clock spent", "not empty", "no such heap"};
    return number < 13 ? names[number] : "no such number";
}

/*
 * How many words a store needs, and 0 for a bad shape: the least length that the calls take.
 */

/* A tree's store. */
uint32_t card_tree_words(uint32_t order, uint32_t levels);

/* A cluster heap's store. */
uint32_t card_cluster_words(uint32_t places, uint32_t levels);

/* A packed heap's store. */
uint32_t card_packed_words(uint32_t heaps, uint32_t levels);

/* The state of fair ranks. */
card_len card_fair_words(void);

/* A bucket queue's words of 64 bits. */
uint32_t card_bucket_bits(uint32_t storeys);

/* A bucket queue's words of 32 bits. */
uint32_t card_bucket_words(uint32_t storeys, uint32_t nodes);

/* The words of 64 bits of several ports on one pool. */
uint32_t card_ports_bits(uint32_t storeys, uint32_t ports);

/* The words of 32 bits of several ports on one pool. */
uint32_t card_ports_words(uint32_t storeys, uint32_t nodes, uint32_t ports);

/* The store of lines. */
uint32_t card_lines_words(uint32_t kind, uint32_t lines, uint32_t places);

/*
 * The same as constants, for arrays. They test nothing: order, places, heaps, levels, storeys, nodes, ports and lines must
 * be good.
 */
#define CARD_TREE_WORDS(order, levels) (4u * ((((order) << (CARD_SHIFT(order) * (levels))) - (order)) / ((order)-1u)))
#define CARD_CLUSTER_WORDS(places, levels) (((1u << (levels)) - 1u) * (4u * (places) + 2u))
#define CARD_PACKED_WORDS(heaps, levels) ((heaps) * (3u * ((1u << (levels)) - 1u) + 1u))
#define CARD_BUCKET_BITS(storeys) ((storeys) == 3u ? 4161u : 65u)
#define CARD_BUCKET_WORDS(storeys, nodes) ((2u << (6u * (storeys))) + 3u * (nodes) + 2u)
#define CARD_PORTS_BITS(storeys, ports) ((ports) * CARD_BUCKET_BITS(storeys))
#define CARD_PORTS_WORDS(storeys, nodes, ports) ((ports) * (2u << (6u * (storeys))) + 3u * (nodes) + 1u + 3u * (ports))
#define CARD_LINES_WORDS(lines, places) ((lines) + 3u * (lines) * (places))
/* A floor and a ceiling for each port. */
#define CARD_LIMIT_WORDS(ports) (2u * (ports))
/* The records of a clocked tree or cluster heap, one for each level from 2: none where there is one level. */
#define CARD_RECORDS(levels) ((levels)-1u)
/* The records of lines on the clock. */
#define CARD_LINES_RECORDS 1u
#define CARD_MARK_WORDS 1u
#define CARD_FAIR_WORDS 65u
#define CARD_OUT_WORDS 3u
/* order is 2 to this power */
#define CARD_SHIFT(order) ((order) == 8u ? 3u : (order) / 2u)

/*
 * The multi-way tree, one operation at a time. Order M is 2, 4 or 8, levels L at least 1, and the
 * capacity M + M^2 + ... + M^L at most 87380: up to 15 levels of order 2, 8 of order 4, 5 of order
 * 8. The store has four words for each slot: rank, tag, length, count (card_tree_words in all); it
 * must be cleared before its first use. The length, in bytes, travels with its element and decides
 * nothing.
 */

/* Empties the tree: 4 * capacity words of zero. Never refused 2. */
uint32_t card_tree_clear(uint32_t *store, card_len store_len, uint32_t order, uint32_t levels);

/* Takes an element in. Refused 7 with tag 0, 5 where the tree is full. */
uint32_t card_tree_push(uint32_t *store, card_len store_len, uint32_t order, uint32_t levels,
                        uint32_t rank, uint32_t tag, uint32_t length);

/* Gives the element of lowest rank in out[0] to out[2]. Refused 6 where nothing is held. */
uint32_t card_tree_pop(uint32_t *store, card_len store_len, uint32_t order, uint32_t levels,
                       uint32_t *out, card_len out_len);

/* A pop, and then a push of the new element: gives the element of lowest rank in out[0] to out[2],
   even if the new rank is lower. Works on a full tree. Refused 7 with tag 0, 6 where nothing is
   held. */
uint32_t card_tree_replace(uint32_t *store, card_len store_len, uint32_t order, uint32_t levels,
                           uint32_t rank, uint32_t tag, uint32_t length, uint32_t *out,
                           card_len out_len);

/* Gives the number of held elements in out[0]. */
uint32_t card_tree_held(const uint32_t *store, card_len store_len, uint32_t order, uint32_t levels,
                        uint32_t *out, card_len out_len);

/* Whether no slot of a tree's store is broken: out[0] 1 and out[1] 0, or else 0 and the number of the
   first broken slot, from 0 in slice order. Broken is a slot with a count not 0 whose count is not
   one plus the counts of the node under it, or whose rank is below that of the slot above it; and a
   slot with count 0 with another word not 0, or with a count under it that is not 0. A clocked tree's
   store passes once nothing is pending. */
uint32_t card_tree_check(const uint32_t *store, card_len store_len, uint32_t order, uint32_t levels,
                         uint32_t *out, card_len out_len);

/* Clears the second store and pushes into it, in slice order, every slot of the first with a count
   not 0; slots with tag 0 are skipped, out[0] says how many. The first store is left alone. What is
   written always passes the check. Refused 1 for either store, before anything is written. */
uint32_t card_tree_mend(const uint32_t *from, card_len from_len, uint32_t *to, card_len to_len,
                        uint32_t order, uint32_t levels, uint32_t *out, card_len out_len);

/*
 * Fair ranks: a tree whose ranks come from weights, for up to 64 flows. Beside the tree's store there
 * is a state of 65 words (card_fair_words): the clock, then the last finish of each flow. A strip of
 * a flow has a weight of 1 to 1024 and a length of 1 to 9216 bytes, which counts in cells of 64 bytes,
 * rounded up. Its rank is its finish: the larger of the clock and its flow's last finish, plus its
 * cells times 65536 / weight, rounded down. The clock becomes the rank of what is popped.
 *
 * Before its first use the store is cleared (card_tree_clear) and the state reset. From then on state
 * and store are handed on as the call before left them, and nothing else changes either: only then are
 * the flows served by their weights. One flow of weight 1 with strips of 9216 bytes spends the clock
 * with its 456th strip; then the host pops until nothing is held, resets, and goes on.
 */

/* Sets the clock and all finishes to 0. Of the store it reads the root alone. Refused 1 for a short
   state; as card_tree_held is refused, 1 or 2; 11 while anything is held. A refusal changes nothing. */
uint32_t card_fair_reset(uint32_t *state, card_len state_len, const uint32_t *store,
                         card_len store_len, uint32_t order, uint32_t levels);

/* Takes a strip of a flow in. Refused 9, before all else, for a flow above 63, a weight of 0 or above
   1024, a length of 0 or above 9216; 1 for a short state; 10 where its finish is above 4294967295;
   then as card_tree_push refuses it. A refusal changes nothing. */
uint32_t card_fair_push(uint32_t *state, card_len state_len, uint32_t *store, card_len store_len,
                        uint32_t order, uint32_t levels, uint32_t flow, uint32_t weight,
                        uint32_t tag, uint32_t length);

/* Gives the strip of lowest rank in out[0] to out[2], and the clock becomes its rank. Refused 6 where
   nothing is held. */
uint32_t card_fair_pop(uint32_t *state, card_len state_len, uint32_t *store, card_len store_len,
                       uint32_t order, uint32_t levels, uint32_t *out, card_len out_len);

/* Gives the number of held strips in out[0], as card_tree_held. */
uint32_t card_fair_held(const uint32_t *store, card_len store_len, uint32_t order, uint32_t levels,
                        uint32_t *out, card_len out_len);

/*
 * The cluster heap beside the tree: a binary heap with K places in each node, K from 2 to 16, levels
 * L at least 1, and the capacity K * (2^L - 1) at most 5460. The store has 4K + 2 words for each
 * node: the counts of all that lies below on the left and on the right, then K places of rank, tag,
 * length and mark (card_cluster_words in all); it must be cleared before its first use. It answers
 * the same ranks as the tree.
 */

/* Empties the heap: all words of its nodes zero. Never refused 2. */
uint32_t card_cluster_clear(uint32_t *store, card_len store_len, uint32_t places, uint32_t levels);

/* Takes an element in. Refused 7 with tag 0, 5 where the heap is full. */
uint32_t card_cluster_push(uint32_t *store, card_len store_len, uint32_t places, uint32_t levels,
                           uint32_t rank, uint32_t tag, uint32_t length);

/* Gives the element of lowest rank in out[0] to out[2]. Refused 6 where nothing is held. */
uint32_t card_cluster_pop(uint32_t *store, card_len store_len, uint32_t places, uint32_t levels,
                          uint32_t *out, card_len out_len);

/* A pop, and then a push of the new element, as card_tree_replace. */
uint32_t card_cluster_replace(uint32_t *store, card_len store_len, uint32_t places, uint32_t levels,
                              uint32_t rank, uint32_t tag, uint32_t length, uint32_t *out,
                              card_len out_len);

/* Gives the number of held elements in out[0]. */
uint32_t card_cluster_held(const uint32_t *store, card_len store_len, uint32_t places,
                           uint32_t levels, uint32_t *out, card_len out_len);

/*
 * The packed heap: a forest of H binary heaps side by side, H from 1 to 256, numbered from 0, in one
 * store. Each has levels L, at least 1, and room for 2^L - 1 elements, all heaps together for at most
 * 131071: up to 17 levels with 1 heap, 16 with 2, and one less each time that the heaps are twice as
 * many, down to 9 with 256. The store has a held word for each heap, then three words for each slot,
 * rank, tag and length, level by level, in a level heap by heap (card_packed_words in all); it must be
 * cleared before its first use. A call at one heap neither reads nor writes another's words. A heap
 * answers the same ranks as the tree.
 */

/* Empties all heaps: held words and slots zero. Never refused 2. */
uint32_t card_packed_clear(uint32_t *store, card_len store_len, uint32_t heaps, uint32_t levels);

/* Takes an element in at a heap. Refused 12 for a heap that there is not, 7 with tag 0, 5 where the heap
   is full. */
uint32_t card_packed_push(uint32_t *store, card_len store_len, uint32_t heaps, uint32_t levels,
                          uint32_t heap, uint32_t rank, uint32_t tag, uint32_t length);

/* Gives the heap's element of lowest rank in out[0] to out[2]. Refused 12 for a heap that there is not,
   6 where the heap holds nothing. */
uint32_t card_packed_pop(uint32_t *store, card_len store_len, uint32_t heaps, uint32_t levels,
                         uint32_t heap, uint32_t *out, card_len out_len);

/* A pop, and then a push of the new element at the same heap: gives the element of lowest rank in out[0]
   to out[2], even if the new rank is lower. Works on a full heap. Refused 12 for a heap that there is
   not, 7 with tag 0, 6 where the heap holds nothing. */
uint32_t card_packed_replace(uint32_t *store, card_len store_len, uint32_t heaps, uint32_t levels,
                             uint32_t heap, uint32_t rank, uint32_t tag, uint32_t length,
                             uint32_t *out, card_len out_len);

/* Gives the number of elements that the heap holds in out[0]. Refused 12 for a heap that there is not. */
uint32_t card_packed_held(const uint32_t *store, card_len store_len, uint32_t heaps,
                          uint32_t levels, uint32_t heap, uint32_t *out, card_len out_len);

/*
 * The bucket queue: first in first out within a rank, a pool of 1 to 65536 nodes. With two storeys
 * of bits it has ranks 0 to 4095, with three 0 to 262143; there is no other depth. The store is 65
 * or 4161 words of 64 bits (bits: top, middle, lowest) and a head and a tail for each rank, three
 * words for each node and two more of 32 bits (words), as card_bucket_bits and card_bucket_words
 * say; it must be cleared before its first use, and storeys and nodes are the same in every call.
 */

/* Empties the queue and makes the chain of free nodes. Never refused 2. */
uint32_t card_bucket_clear(uint64_t *bits, card_len bits_len, uint32_t *words, card_len words_len,
                           uint32_t storeys, uint32_t nodes);

/* Takes an element in, behind those of its rank. Refused 4 above the last rank, 7 with tag 0, 5
   where no node is free. */
uint32_t card_bucket_push(uint64_t *bits, card_len bits_len, uint32_t *words, card_len words_len,
                          uint32_t storeys, uint32_t nodes, uint32_t rank, uint32_t tag,
                          uint32_t length);

/* Gives the first element of the lowest rank in out[0] to out[2]. Refused 6 where nothing is
   held. */
uint32_t card_bucket_pop(uint64_t *bits, card_len bits_len, uint32_t *words, card_len words_len,
                         uint32_t storeys, uint32_t nodes, uint32_t *out, card_len out_len);

/* A pop, and then a push of the new element: gives the first element of the lowest rank in out[0]
   to out[2], even if the new rank is lower. Works on a full queue. Refused 4 above the last rank,
   7 with tag 0, 6 where nothing is held. */
uint32_t card_bucket_replace(uint64_t *bits, card_len bits_len, uint32_t *words, card_len words_len,
                             uint32_t storeys, uint32_t nodes, uint32_t rank, uint32_t tag,
                             uint32_t length, uint32_t *out, card_len out_len);

/* Gives the number of held elements in out[0]. */
uint32_t card_bucket_held(const uint64_t *bits, card_len bits_len, const uint32_t *words,
                          card_len words_len, uint32_t storeys, uint32_t nodes, uint32_t *out,
                          card_len out_len);

/*
 * Several ports on one pool: 1 to 16 bucket queues, numbered from 0, each with ranks, bits and lists of
 * its own, that share the nodes of one pool. Each port has a floor and a ceiling, which are fixed when
 * clearing: floor at most ceiling, and the floors together at most the number of nodes. A port that
 * holds less than its floor is never full, whatever the others hold; none holds more than its ceiling.
 * The store is card_ports_bits words of 64 bits and card_ports_words of 32; it must be cleared before its
 * first use, and storeys, nodes and ports are the same in every call.
 */

/* Empties all ports, makes the chain of free nodes and fixes the limits: port p's floor is limits[2p],
   its ceiling limits[2p + 1]. Refused 1 also where the limits are too few, a floor is above its ceiling
   or the floors are more than the nodes. Never refused 2. */
uint32_t card_ports_clear(uint64_t *bits, card_len bits_len, uint32_t *words, card_len words_len,
                          uint32_t storeys, uint32_t nodes, uint32_t ports, const uint32_t *limits,
                          card_len limits_len);

/* Takes an element in at a port, behind those of its rank. Refused 8 for a port that there is not, 4
   above the last rank, 7 with tag 0. Refused 5 where the port holds its floor or more and either holds
   its ceiling, or the nodes less the larger of held and floor of each port come to none. */
uint32_t card_ports_push(uint64_t *bits, card_len bits_len, uint32_t *words, card_len words_len,
                         uint32_t storeys, uint32_t nodes, uint32_t ports, uint32_t port,
                         uint32_t rank, uint32_t tag, uint32_t length);

/* Gives the port's first element of its lowest rank in out[0] to out[2]. Refused 8 for a port that there
   is not, 6 where the port holds nothing. */
uint32_t card_ports_pop(uint64_t *bits, card_len bits_len, uint32_t *words, card_len words_len,
                        uint32_t storeys, uint32_t nodes, uint32_t ports, uint32_t port,
                        uint32_t *out, card_len out_len);

/* A pop, and then a push of the new element at the same port, which needs no room. Refused 8 for a port
   that there is not, 4 above the last rank, 7 with tag 0, 6 where the port holds nothing. */
uint32_t card_ports_replace(uint64_t *bits, card_len bits_len, uint32_t *words, card_len words_len,
                            uint32_t storeys, uint32_t nodes, uint32_t ports, uint32_t port,
                            uint32_t rank, uint32_t tag, uint32_t length, uint32_t *out,
                            card_len out_len);

/* Gives the number of elements that the port holds in out[0]. Refused 8 for a port that there is not. */
uint32_t card_ports_held(const uint64_t *bits, card_len bits_len, const uint32_t *words,
                         card_len words_len, uint32_t storeys, uint32_t nodes, uint32_t ports,
                         uint32_t port, uint32_t *out, card_len out_len);

/*
 * The same tree, worked by clock cycles. Beside the store there are a pending record for each level
 * from 2 and one word of mark: 1 where the last cycle's operation was answered without refusal, else
 * 0. Records and mark are handed on, each time, as the call before left them.
 *
 * Records lie in the caller's own memory. Those past levels less one are neither read nor written. A
 * record of nothing is not looked at but for its kind, and stands as it is until a cycle loads it;
 * what a cycle writes has 0 for the numbers that its kind does not use. After 1 and 2 no record is
 * written, but a drain refused 2 leaves those of the cycles already run.
 */
struct card_record {
    uint32_t kind; /* 0 nothing, 1 put, 2 take, 3 swap */
    uint32_t node;
    uint32_t rank;
    uint32_t tag;
    uint32_t length;
};

/* The library's layout: five words, in this order. Where a compiler has another, this is an error. */
typedef char card_record_layout[sizeof(struct card_record) == 5 * sizeof(uint32_t) &&
                                        offsetof(struct card_record, kind) == 0 * sizeof(uint32_t) &&
                                        offsetof(struct card_record, node) == 1 * sizeof(uint32_t) &&
                                        offsetof(struct card_record, rank) == 2 * sizeof(uint32_t) &&
                                        offsetof(struct card_record, tag) == 3 * sizeof(uint32_t) &&
                                        offsetof(struct card_record, length) == 4 * sizeof(uint32_t)
                                    ? 1
                                    : -1];

/* Empties the tree: store and records zero, mark off. Reads neither records nor mark. */
uint32_t card_clocked_clear(uint32_t *store, card_len store_len, uint32_t order, uint32_t levels,
                            struct card_record *records, card_len records_len, uint32_t *mark,
                            card_len mark_len);

/* Runs one cycle with a request: 0 idle, 1 push, 2 pop, 3 replace. The operation is answered in
   its own cycle. Refused 3, 5, 6 or 7 it runs as an idle cycle. */
uint32_t card_clocked_cycle(uint32_t *store, card_len store_len, uint32_t order, uint32_t levels,
                            struct card_record *records, card_len records_len, uint32_t *mark,
                            card_len mark_len, uint32_t request, uint32_t rank, uint32_t tag,
                            uint32_t length, uint32_t *out, card_len out_len);

/* Runs idle cycles until nothing is pending or the budget is spent: out[0] the cycles run, out[1]
   1 where work is left. */
uint32_t card_clocked_drain(uint32_t *store, card_len store_len, uint32_t order, uint32_t levels,
                            struct card_record *records, card_len records_len, uint32_t *mark,
                            card_len mark_len, uint32_t budget, uint32_t *out, card_len out_len);

/* Gives the number of held elements in out[0]. Reads the root alone, no record. */
uint32_t card_clocked_held(const uint32_t *store, card_len store_len, uint32_t order,
                           uint32_t levels, uint32_t *out, card_len out_len);

/*
 * The cluster heap, worked by clock cycles: nothing is ever too soon, and there is no mark. Beside the
 * store there is a pending record for each level from 2, which stands between that level and the one
 * above it, and lives for one cycle. Records are handed on, each time, as the call before left them.
 *
 * Records lie in the caller's own memory. Those past levels less one are neither read nor written. A
 * cycle that runs writes all others, with 0 for the numbers that a kind does not use. After 1 and 2 no
 * record is written, but a drain refused 2 leaves those of the cycles already run.
 */
struct card_cluster_record {
    uint32_t kind;  /* 0 nothing, 1 put, 2 fill, 3 swap */
    uint32_t node;  /* of a put the node of this level, of a fill or swap that of the level above */
    uint32_t place; /* of a fill or swap */
    uint32_t rank;  /* of a put or swap */
    uint32_t tag;
    uint32_t length;
};

/* The library's layout: six words, in this order. Where a compiler has another, this is an error. */
typedef char card_cluster_record_layout[sizeof(struct card_cluster_record) == 6 * sizeof(uint32_t) &&
                                                offsetof(struct card_cluster_record, kind) == 0 * sizeof(uint32_t) &&
                                                offsetof(struct card_cluster_record, node) == 1 * sizeof(uint32_t) &&
                                                offsetof(struct card_cluster_record, place) == 2 * sizeof(uint32_t) &&
                                                offsetof(struct card_cluster_record, rank) == 3 * sizeof(uint32_t) &&
                                                offsetof(struct card_cluster_record, tag) == 4 * sizeof(uint32_t) &&
                                                offsetof(struct card_cluster_record, length) == 5 * sizeof(uint32_t)
                                            ? 1
                                            : -1];

/* Empties the heap: store and records zero. Reads no record. */
uint32_t card_clocked_cluster_clear(uint32_t *store, card_len store_len, uint32_t places,
                                    uint32_t levels, struct card_cluster_record *records,
                                    card_len records_len);

/* Runs one cycle with a request: 0 idle, 1 push, 2 pop, 3 replace. The operation is answered in its own
   cycle, whatever the cycle before did. Refused 5, 6 or 7 it runs as an idle cycle. */
uint32_t card_clocked_cluster_cycle(uint32_t *store, card_len store_len, uint32_t places,
                                    uint32_t levels, struct card_cluster_record *records,
                                    card_len records_len, uint32_t request, uint32_t rank,
                                    uint32_t tag, uint32_t length, uint32_t *out, card_len out_len);

/* Runs idle cycles until nothing is pending or the budget is spent: out[0] the cycles run, out[1] 1
   where work is left. Levels less one are always enough. */
uint32_t card_clocked_cluster_drain(uint32_t *store, card_len store_len, uint32_t places,
                                    uint32_t levels, struct card_cluster_record *records,
                                    card_len records_len, uint32_t budget, uint32_t *out,
                                    card_len out_len);

/* Gives the number of held elements in out[0], in the middle of any work too. Reads the root alone, no
   record. */
uint32_t card_clocked_cluster_held(const uint32_t *store, card_len store_len, uint32_t places,
                                   uint32_t levels, uint32_t *out, card_len out_len);

/*
 * Lines: Q sorted lines of W places each, Q a power of two from 1 to 512, W from 1 to 1024. Of kind 1
 * each line has as many of the ranks 0 to 65535 as every other, the lowest ranks in the first line; a
 * line is a queue of its own, the first that is not empty gives, and equal ranks leave first in, first
 * out. Of kind 2 all lines are one queue, of any rank: an element goes into the first line that is not
 * full, and the line whose first rank is lowest gives. With one line both are a single sorted row, first
 * in, first out. The store has a count for each line, then the lines one behind the other, three words
 * for each place: rank, tag, length (card_lines_words in all); it must be cleared before its first use,
 * and kind, lines and places are the same in every call.
 */

/* Empties all lines: all words zero. Never refused 2. */
uint32_t card_lines_clear(uint32_t *store, card_len store_len, uint32_t kind, uint32_t lines,
                          uint32_t places);

/* Takes an element in, behind those of its rank in its line. Refused 4 where the kind is 1 and the rank
   above 65535, 7 with tag 0. Refused 5, kind 1, where the line of its rank is full, kind 2 where all
   lines are. */
uint32_t card_lines_push(uint32_t *store, card_len store_len, uint32_t kind, uint32_t lines,
                         uint32_t places, uint32_t rank, uint32_t tag, uint32_t length);

/* Gives the first element of the lowest rank in out[0] to out[2]; of kind 2 it is the first in its line,
   and of equal lines the first. Refused 6 where nothing is held. */
uint32_t card_lines_pop(uint32_t *store, card_len store_len, uint32_t kind, uint32_t lines,
                        uint32_t places, uint32_t *out, card_len out_len);

/* A pop, and then a push of the new element, of kind 2 into the line that gave: gives what the pop gives,
   even if the new rank is lower. Refused 4 where the kind is 1 and the rank above 65535, 7 with tag 0, 6
   where nothing is held. Refused 5, kind 1, where the line of its rank did not give and is full. */
uint32_t card_lines_replace(uint32_t *store, card_len store_len, uint32_t kind, uint32_t lines,
                            uint32_t places, uint32_t rank, uint32_t tag, uint32_t length,
                            uint32_t *out, card_len out_len);

/* Gives the number of held elements in out[0]. Reads the counts alone. */
uint32_t card_lines_held(const uint32_t *store, card_len store_len, uint32_t kind, uint32_t lines,
                         uint32_t places, uint32_t *out, card_len out_len);

/*
 * The same lines, worked by clock cycles: the counts change in an operation's own cycle, its line in the
 * next. Nothing is ever too soon, and there is no mark. Beside the store there is one pending record, a
 * card_record: kind (0 nothing, 1 push, 2 pop, 3 replace), the line as node, and the element of a push or
 * replace. It is handed on, each time, as the call before left it; of a longer slice only the first is
 * read and written. A cycle that runs writes it, with 0 for the numbers that its kind does not use. After
 * 1 and 2 it is not written, but a drain refused 2 leaves that of the cycles already run.
 */

/* Empties all lines: store and record zero. Reads no record. */
uint32_t card_lines_clock_clear(uint32_t *store, card_len store_len, uint32_t kind, uint32_t lines,
                                uint32_t places, struct card_record *records, card_len records_len);

/* Runs one cycle with a request: 0 idle, 1 push, 2 pop, 3 replace. The operation is answered in its own
   cycle, as one at a time, whatever the cycle before did. Refused 4, 5, 6 or 7 it runs as an idle cycle. */
uint32_t card_lines_clock_cycle(uint32_t *store, card_len store_len, uint32_t kind, uint32_t lines,
                                uint32_t places, struct card_record *records, card_len records_len,
                                uint32_t request, uint32_t rank, uint32_t tag, uint32_t length,
                                uint32_t *out, card_len out_len);

/* Runs idle cycles until nothing is pending or the budget is spent: out[0] the cycles run, out[1] 1
   where work is left. One is always enough. */
uint32_t card_lines_clock_drain(uint32_t *store, card_len store_len, uint32_t kind, uint32_t lines,
                                uint32_t places, struct card_record *records, card_len records_len,
                                uint32_t budget, uint32_t *out, card_len out_len);

/* Gives the number of held elements in out[0], in the middle of any work too. Reads the counts alone, no
   record. */
uint32_t card_lines_clock_held(const uint32_t *store, card_len store_len, uint32_t kind,
                               uint32_t lines, uint32_t places, uint32_t *out, card_len out_len);

#ifdef __cplusplus
}
#endif

#endif
