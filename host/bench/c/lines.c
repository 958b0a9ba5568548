/* The lines, one operation at a time. */
#include "lines.h"

void plain_lines_push(const rows *l, uint32_t rank, uint32_t tag, uint32_t length) {
    strip x = {rank, tag, length};
    uint32_t line = taker(l, x);
    put_in(row(l, line), l->store[line]++, x);
}

void plain_lines_pop(const rows *l, strip *out) {
    uint32_t line = giver(l);
    *out = *row(l, line);
    take_from(row(l, line), l->store[line]--);
}

void plain_lines_replace(const rows *l, uint32_t rank, uint32_t tag, uint32_t length, strip *out) {
    strip x = {rank, tag, length};
    uint32_t from = giver(l), to = l->kind == 1 ? line_of(l, rank) : from;
    *out = *row(l, from);
    take_from(row(l, from), l->store[from]--);
    put_in(row(l, to), l->store[to]++, x);
}
