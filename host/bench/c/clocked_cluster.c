/* The clocked cluster heap: one pass from the root down, level k + 1 still unwritten when level k reads it. */
#include "cluster.h"

/* In the order of the requests: a push is a put, a pop leaves a gap to fill, a replace an element on trial. */
enum { NOTHING, PUT, FILL, TRIAL };

/* Between a level and the next: an element on its way to a node of the lower one, or a gap or an element on trial at the upper one's. */
typedef struct {
    uint32_t kind, node, place;
    strip x;
} stage;

/* A level's work: PUT x, FILL for a take and TRIAL for a swap of x, at a node of the level and, but for a put, the place that gives. */
typedef stage work;

typedef struct {
    uint32_t *store;
    stage *records;
    uint32_t places, levels, capacity;
} machine;

/* The number of the request, and the root's work. */
static inline uint32_t ask(const machine *m, uint32_t k, uint32_t request, strip x, work *root) {
    *root = (work){0};
    if (request == IDLE) return DONE;
    if (request != POP && x.tag == 0) return NO_TAG;
    uint32_t all = rooted(m->store, k);
    if (request == PUSH ? all == m->capacity : all == 0) return request == PUSH ? FULL : EMPTY;
    if (request == PUSH) *root = (work){PUT, 0, 0, x};
    else *root = (work){request, 0, low(node_at(m->store, k, 0), k).place, request == POP ? (strip){0, 0, 0} : x};
    return DONE;
}

/* A waiting node receives what the lower child gives; the work of the level below. `above` is the number of the level's first node. */
static inline work settle(uint32_t *store, uint32_t k, uint32_t above, stage was) {
    if (was.kind == PUT) return was;
    uint32_t number = above + was.node;
    cluster own = node_at(store, k, number);
    choice next = lower_side(store, k, number);
    if (was.kind == TRIAL && next.low.turn >> 32 >= was.x.rank) return (work){0};
    own.places[was.place] = (place){node_at(store, k, 2 * number + 1 + next.side).places[next.low.place].x, 1};
    own.counts[next.side] -= was.kind == FILL;
    return (work){was.kind, 2 * was.node + next.side, next.low.place, was.x};
}

/* A level's work at its node: the record that it loads. */
static inline stage begin(uint32_t *store, uint32_t k, uint32_t above, work now) {
    cluster own = node_at(store, k, above + now.node);
    if (now.kind == PUT) {
        uint32_t side = put_at(own, k, &now.x);
        return side == 2 ? (stage){0} : (stage){PUT, 2 * now.node + side, 0, now.x};
    }
    own.places[now.place] = now.kind == FILL ? (place){{0, 0, 0}, 0} : (place){now.x, 1};
    return bottom(own) ? (stage){0} : now;
}

static inline uint32_t cycle(machine *m, uint32_t k, uint32_t request, strip x, strip *out) {
    work now;
    uint32_t number = ask(m, k, request, x, &now);
    *out = now.kind == FILL || now.kind == TRIAL ? node_at(m->store, k, 0).places[now.place].x : (strip){0, 0, 0};
    stage *record = m->records;
    for (uint32_t level = 1, above = 0; level < m->levels; level++, above = 2 * above + 1, record++) {
        if ((record->kind | now.kind) == NOTHING) continue;
        work next = {0};
        if (record->kind != NOTHING) next = settle(m->store, k, above, *record);
        if (now.kind != NOTHING) *record = begin(m->store, k, above, now);
        else *record = (stage){0};
        now = next;
    }
    if (now.kind != NOTHING) begin(m->store, k, (1u << (m->levels - 1)) - 1, now);
    return number;
}

uint32_t plain_stages_cycle(machine *m, uint32_t request, uint32_t rank, uint32_t tag, uint32_t length, strip *out) {
    strip x = {rank, tag, length};
    if (m->places == 4) return cycle(m, 4, request, x, out);
    if (m->places == 2) return cycle(m, 2, request, x, out);
    return cycle(m, m->places, request, x, out);
}
