/* Lines on the clock: the counts change in the request's own cycle, the line in the next. */
#include "lines.h"

typedef struct {
    uint32_t kind, line;
    strip x;
} due;

/* Where x of a pending push or replace goes. */
static inline uint32_t goal(const rows *l, due now) { return l->kind == 1 ? line_of(l, now.x.rank) : now.line; }

/* The pending record's work, on lines whose counts have changed already. */
static inline void settle(const rows *l, due now) {
    if (now.kind == PUSH) put_in(row(l, now.line), l->store[now.line] - 1, now.x);
    if (now.kind == POP) take_from(row(l, now.line), l->store[now.line] + 1);
    if (now.kind != REPLACE) return;
    uint32_t to = goal(l, now);
    take_from(row(l, now.line), l->store[now.line] + (to != now.line));
    put_in(row(l, to), l->store[to] - 1, now.x);
}

/* The number of the request; its record, and the counts. */
static inline uint32_t choose(const rows *l, uint32_t request, strip x, due *next, strip *out) {
    if (request == IDLE) return DONE;
    if (request != POP && l->kind == 1 && x.rank > 65535) return 4;
    if (request != POP && x.tag == 0) return NO_TAG;
    if (request == PUSH) {
        uint32_t to = taker(l, x);
        if (to == l->lines) return FULL;
        l->store[to]++;
        *next = (due){PUSH, to, x};
        return DONE;
    }
    uint32_t from = giver(l);
    if (from == l->lines) return EMPTY;
    due now = {request, from, request == POP ? (strip){0, 0, 0} : x};
    uint32_t to = request == POP ? from : goal(l, now);
    if (to != from && l->store[to] == l->places) return FULL;
    *out = *row(l, from);
    l->store[from]--;
    l->store[to] += request == REPLACE;
    *next = now;
    return DONE;
}

uint32_t plain_lines_cycle(const rows *l, due *record, uint32_t request, uint32_t rank, uint32_t tag, uint32_t length, strip *out) {
    strip x = {rank, tag, length};
    due next = {0};
    settle(l, *record);
    *out = (strip){0, 0, 0};
    uint32_t number = choose(l, request, x, &next, out);
    *record = next;
    return number;
}
