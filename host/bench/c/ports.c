/* Several ports on one pool, at two storeys or three. */
#include "bucket.h"

typedef struct {
    uint32_t held, floor, ceiling;
} port;

/* The words of all ports. */
typedef struct {
    uint64_t *bits;
    uint32_t *words;
    uint32_t storeys, nodes, ports;
} pool;

static inline uint32_t *free_link(const pool *p, uint32_t storeys) { return p->words + 2 * ranks(storeys) * p->ports + 3 * p->nodes; }
static inline port *account(const pool *p, uint32_t storeys) { return (port *)(free_link(p, storeys) + 1); }

static inline seat at(const pool *p, uint32_t storeys, uint32_t number) {
    uint32_t r = ranks(storeys), *heads = p->words + 2 * r * number;
    return (seat){p->bits + bit_words(storeys) * number,
                  heads,
                  heads + r,
                  (node *)(p->words + 2 * r * p->ports),
                  free_link(p, storeys),
                  &account(p, storeys)[number].held};
}

/* The rule of room: below its floor, or below its ceiling while some node is promised to none. */
static inline int room(const pool *p, uint32_t storeys, uint32_t number) {
    const port *all = account(p, storeys), *own = all + number;
    if (own->held < own->floor) return 1;
    uint64_t sum = 0;
    for (uint32_t i = 0; i < p->ports; i++) sum += all[i].held > all[i].floor ? all[i].held : all[i].floor;
    return own->held < own->ceiling && sum < p->nodes;
}

void plain_ports_clear(const pool *p, const uint32_t *limits) {
    memset(p->bits, 0, p->ports * bit_words(p->storeys) * sizeof *p->bits);
    memset(p->words, 0, 2 * ranks(p->storeys) * p->ports * sizeof *p->words);
    chain((node *)(p->words + 2 * ranks(p->storeys) * p->ports), p->nodes);
    *free_link(p, p->storeys) = 1;
    for (uint32_t i = 0; i < p->ports; i++) account(p, p->storeys)[i] = (port){0, limits[2 * i], limits[2 * i + 1]};
}

uint32_t plain_ports_push(const pool *p, uint32_t number, uint32_t rank, uint32_t tag, uint32_t length) {
    strip x = {rank, tag, length};
    if (!room(p, p->storeys, number)) return FULL;
    if (p->storeys == 2) push(at(p, 2, number), 2, x);
    else push(at(p, 3, number), 3, x);
    return DONE;
}

void plain_ports_pop(const pool *p, uint32_t number, strip *out) {
    if (p->storeys == 2) pop(at(p, 2, number), 2, out);
    else pop(at(p, 3, number), 3, out);
}

void plain_ports_replace(const pool *p, uint32_t number, uint32_t rank, uint32_t tag, uint32_t length, strip *out) {
    strip x = {rank, tag, length};
    if (p->storeys == 2) replace(at(p, 2, number), 2, x, out);
    else replace(at(p, 3, number), 3, x, out);
}
