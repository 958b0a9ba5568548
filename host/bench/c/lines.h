/* Lines: counts, and then the lines one behind the other. */
#ifndef LINES_H
#define LINES_H

#include "plain.h"

typedef struct {
    uint32_t *store;
    uint32_t kind, lines, places;
} rows;

static inline strip *row(const rows *l, uint32_t line) { return (strip *)(l->store + l->lines) + (uint64_t)line * l->places; }

/* Puts x before the first place of strictly higher rank in a line of c elements. */
static inline void put_in(strip *line, uint32_t c, strip x) {
    uint32_t from = 0, to = c;
    while (from < to) {
        uint32_t middle = (from + to) / 2;
        if (line[middle].rank <= x.rank) from = middle + 1;
        else to = middle;
    }
    memmove(line + from + 1, line + from, (c - from) * sizeof *line);
    line[from] = x;
}

/* Takes the first place out of a line of c elements. */
static inline void take_from(strip *line, uint32_t c) {
    memmove(line, line + 1, (c - 1) * sizeof *line);
    line[c - 1] = (strip){0, 0, 0};
}

static inline uint32_t line_of(const rows *l, uint32_t rank) { return rank / (65536 / l->lines); }

/* The line into which x goes; the number of lines where that is full. */
static inline uint32_t taker(const rows *l, strip x) {
    if (l->kind == 1) return l->store[line_of(l, x.rank)] < l->places ? line_of(l, x.rank) : l->lines;
    uint32_t line = 0;
    while (line < l->lines && l->store[line] == l->places) line++;
    return line;
}

/* The line that gives; the number of lines where all are empty. */
static inline uint32_t giver(const rows *l) {
    uint32_t line = 0, best = l->lines;
    if (l->kind == 1) {
        while (line < l->lines && l->store[line] == 0) line++;
        return line;
    }
    for (; line < l->lines; line++)
        if (l->store[line] != 0 && (best == l->lines || row(l, line)->rank < row(l, best)->rank)) best = line;
    return best;
}

#endif
