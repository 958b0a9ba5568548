/* The bucket queue. */
#include "bucket.h"

static inline seat at(uint64_t *bits, uint32_t *words, uint32_t storeys, uint32_t nodes) {
    uint32_t r = ranks(storeys), *behind = words + 2 * r + 3 * nodes;
    return (seat){bits, words, words + r, (node *)(words + 2 * r), behind, behind + 1};
}

void plain_bucket_clear(uint64_t *bits, uint32_t *words, uint32_t storeys, uint32_t nodes) {
    seat s = at(bits, words, storeys, nodes);
    memset(bits, 0, bit_words(storeys) * sizeof *bits);
    memset(words, 0, 2 * ranks(storeys) * sizeof *words);
    chain(s.nodes, nodes);
    *s.first_free = 1;
    *s.held = 0;
}

void plain_bucket_push(uint64_t *bits, uint32_t *words, uint32_t storeys, uint32_t nodes, uint32_t rank, uint32_t tag, uint32_t length) {
    strip x = {rank, tag, length};
    if (storeys == 2) push(at(bits, words, 2, nodes), 2, x);
    else push(at(bits, words, 3, nodes), 3, x);
}

void plain_bucket_pop(uint64_t *bits, uint32_t *words, uint32_t storeys, uint32_t nodes, strip *out) {
    if (storeys == 2) pop(at(bits, words, 2, nodes), 2, out);
    else pop(at(bits, words, 3, nodes), 3, out);
}

void plain_bucket_replace(uint64_t *bits, uint32_t *words, uint32_t storeys, uint32_t nodes, uint32_t rank, uint32_t tag, uint32_t length,
                          strip *out) {
    strip x = {rank, tag, length};
    if (storeys == 2) replace(at(bits, words, 2, nodes), 2, x, out);
    else replace(at(bits, words, 3, nodes), 3, x, out);
}
