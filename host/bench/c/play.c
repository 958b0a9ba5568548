/* The trace program: a trace's bytes from standard input, its lines to standard output. */
#include "clocked_tree.h"
#include <stdio.h>

/* The largest shape that a trace may have: 4,094 slots, 11 levels. */
static slot store[4094];
static work records[10];
static unsigned char in[1 << 16];
static char out[1 << 16];
static size_t have, at, written;

/* The next `count` bytes; none where they are not there. */
static const unsigned char *next(size_t count) {
    if (have - at < count) {
        memmove(in, in + at, have - at);
        have -= at;
        at = 0;
        size_t more;
        while (have < count && (more = fread(in + have, 1, sizeof in - have, stdin)) > 0) have += more;
        if (have < count) return NULL;
    }
    at += count;
    return in + at - count;
}

static uint32_t number_at(const unsigned char *b) { return b[0] | b[1] << 8 | b[2] << 16 | (uint32_t)b[3] << 24; }

static void text(const char *words) {
    size_t length = strlen(words);
    memcpy(out + written, words, length);
    written += length;
}

static void decimal(uint32_t n) {
    char digits[10];
    uint32_t i = 10;
    do digits[--i] = (char)('0' + n % 10);
    while ((n /= 10) != 0);
    memcpy(out + written, digits + i, 10 - i);
    written += 10 - i;
}

/* One line at most has 60 bytes. */
static void flush(size_t room) {
    if (sizeof out - written >= room) return;
    fwrite(out, 1, written, stdout);
    written = 0;
}

static void line(uint32_t number, uint32_t code, strip given, int lengths) {
    static const char *const refused[] = {"", "", "", " too soon\n", "", " full\n", " empty\n", " no tag\n"};
    if (number != DONE) text(refused[number]);
    else if (code == IDLE) text(" idle\n");
    else if (code == PUSH) text(" pushed\n");
    else {
        text(" out ");
        decimal(given.rank);
        text(" ");
        decimal(given.tag);
        if (lengths) {
            text(" ");
            decimal(given.length);
        }
        text("\n");
    }
}

/* Runs the records of a trace; the number of a bad one, 0 where there is none. */
static inline uint32_t play(clocked *m, uint32_t order, int lengths) {
    const unsigned char *b;
    for (uint32_t n = 1;; n++) {
        if ((b = next(lengths ? 13 : 9)) == NULL) return have == at ? 0 : n;
        strip x = {number_at(b + 1), number_at(b + 5), lengths ? number_at(b + 9) : 0}, given;
        if (b[0] > REPLACE || ((b[0] == IDLE || b[0] == POP) && (x.rank | x.tag | x.length) != 0)) return n;
        flush(64);
        decimal(n);
        line(cycle(m, order, b[0], x, &given), b[0], given, lengths);
    }
}

static int pending(const clocked *m) {
    for (uint32_t i = 0; i + 1 < m->levels; i++)
        if (m->records[i].kind != NOTHING) return 1;
    return 0;
}

int main(void) {
    const unsigned char *b = next(7);
    uint32_t most = b == NULL ? 0 : b[5] == 2 ? 11 : b[5] == 4 ? 5 : b[5] == 8 ? 3 : 0;
    if (most == 0 || memcmp(b, "PFT", 3) != 0 || b[4] != 0 || b[3] < 1 || b[3] > 2 || b[6] < 1 || b[6] > most) {
        puts("bad trace");
        return 0;
    }
    clocked m = {store, records, b[5], b[6], 0, 0};
    int lengths = b[3] == 2;
    for (uint32_t k = 0; k < m.levels; k++) m.capacity = (m.capacity + 1) * m.order;
    uint32_t bad = m.order == 2 ? play(&m, 2, lengths) : m.order == 4 ? play(&m, 4, lengths) : play(&m, 8, lengths), drained = 0;
    flush(128);
    if (bad != 0) {
        text("bad record ");
        decimal(bad);
    } else {
        strip none;
        text("held ");
        decimal(held(m.store, m.order));
        for (; pending(&m); drained++) cycle(&m, m.order, IDLE, (strip){0, 0, 0}, &none);
        text(" drained ");
        decimal(drained);
    }
    text("\n");
    fwrite(out, 1, written, stdout);
    return 0;
}
