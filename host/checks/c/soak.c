/*
 * The soak: every call of the library, on sound stores and on hostile ones, and every answer and every word in one hash. Libraries for
 * different processors must write the same lines. It needs 4 MB of memory and a printf that knows %u and %s.
 *
 * A compiler evaluates the arguments of a call in an order of its own, so every number is drawn before its call.
 */
#include "card.h"
#include "random.h"
#include <stdio.h>

#define STORE CARD_BUCKET_WORDS(3, 4096)
#define SECOND CARD_TREE_WORDS(4, 8)
#define BEHIND 4u /* words behind the store: nothing may touch them */
#define CALLS 4000u

static uint32_t store[STORE + BEHIND], second[SECOND + BEHIND], state[CARD_FAIR_WORDS + BEHIND], limits[CARD_LIMIT_WORDS(16) + BEHIND];
static uint32_t mark[4], out[6];
static uint64_t bits[CARD_BUCKET_BITS(3) + BEHIND];
static struct card_record records[CARD_RECORDS(15) + BEHIND];
static struct card_cluster_record stages[CARD_RECORDS(15) + BEHIND];

static uint64_t hash;
static uint32_t calls, numbers[14], strange;

/* the shape, and how many words and records its slices need */
static uint32_t shape[3], words, words64, pending;
static int hostile;
/* what the next call is handed */
static uint32_t a, b, c, rank, tag, length, at;
static card_len n, n2, n3, no;
/* how the queue is worked: of a hundred calls so many push, pop and replace, and ranks below this number */
static uint32_t pushes, pops, replaces, ranks;

enum turn { PUSH, POP, REPLACE, HELD, OTHER, CLEAR };

static uint32_t below(uint32_t limit) { return word() % limit; }

static void mix(uint32_t w) { hash = (hash ^ w) * ((uint64_t)0x100u << 32 | 0x1b3u); }

static void all(const uint32_t *from, uint32_t count) {
    while (count-- > 0) mix(*from++);
}

static void everything(void) {
    uint32_t i;
    all(store, words + BEHIND);
    for (i = 0; i < words64 + (words64 ? 1 : 0); i++) {
        mix((uint32_t)bits[i]);
        mix((uint32_t)(bits[i] >> 32));
    }
    all(state, CARD_FAIR_WORDS + 1);
    all(mark, 4);
    for (i = 0; i < pending + 1; i++) {
        all(&records[i].kind, 5);
        all(&stages[i].kind, 6);
    }
}

/* After a call: its number and answer, and every word; of long stores every word now and then. */
static void note(uint32_t number) {
    uint32_t i;
    mix(number);
    all(out, 6);
    for (i = 0; i < 6; i++) out[i] = 0xdead0000u + i;
    numbers[number < 13 ? number : 13]++;
    if (calls++ % (words / 160 + 1) == 0) everything();
}

/* A length: what is needed, now and then more or less, and NULL's for the callers that hand over none. */
static card_len some(uint32_t need) {
    switch (below(hostile ? 40 : 400)) {
    case 0: return need > 0 ? need - 1 : 0;
    case 1: return need + 2;
    case 2: return below(need + 1);
    default: return need;
    }
}

/* A number of the shape: the right one, now and then another. */
static uint32_t about(uint32_t right) {
    if (!hostile || below(60) != 0) return right;
    switch (below(4)) {
    case 0: return right + 1;
    case 1: return right - 1;
    case 2: return below(20);
    default: return word();
    }
}

static void draw(void) {
    a = about(shape[0]);
    b = about(shape[1]);
    c = about(shape[2]);
    rank = ranks == 0 ? word() : below(ranks);
    if (below(100) == 0) rank = word() % 300000u;
    tag = below(40) == 0 ? 0 : word();
    length = below(40) == 0 ? 0 : below(9300);
    at = word();
    n = some(words);
    n2 = some(words64);
    n3 = some(pending);
    no = some(3);
}

static uint32_t turn(void) {
    uint32_t of = below(100);
    if (of < pushes) return PUSH;
    if (of < pushes + pops) return POP;
    if (of < pushes + pops + replaces) return REPLACE;
    return below(2) == 0 ? HELD : OTHER;
}

static void mood(void) {
    static const uint32_t some_ranks[6] = {1, 5, 64, 1000, 4096, 0};
    static const uint32_t moods[6][3] = {{80, 5, 5}, {45, 35, 10}, {5, 80, 5}, {20, 20, 50}, {40, 40, 0}, {10, 60, 20}};
    uint32_t m = below(6);
    pushes = moods[m][0];
    pops = moods[m][1];
    replaces = moods[m][2];
    ranks = some_ranks[below(6)];
}

/* One word that the calls read becomes another: a bit turned, a small number, a copy of its neighbour, or anything. */
static uint32_t spoilt(uint32_t old, uint32_t near) {
    switch (below(5)) {
    case 0: return old ^ (uint32_t)1 << below(32);
    case 1: return below(6);
    case 2: return near;
    case 3: return old + 1;
    default: return word();
    }
}

static void spoil(void) {
    uint32_t i;
    switch (below(6)) {
    case 0:
        i = below(pending + 1);
        records[i].kind = spoilt(records[i].kind, below(4));
        records[i].node = spoilt(records[i].node, below(4));
        stages[i].kind = spoilt(stages[i].kind, below(4));
        stages[i].place = spoilt(stages[i].place, below(4));
        return;
    case 1: mark[0] = spoilt(mark[0], below(2)); return;
    case 2:
        i = below(CARD_FAIR_WORDS);
        state[i] = below(3) == 0 ? 0u - below(70000) : spoilt(state[i], state[0]);
        return;
    case 3:
        if (words64 != 0) {
            i = below(2) == 0 ? below(words64) : 0;
            bits[i] ^= (uint64_t)1 << below(64);
            return;
        }
        break;
    default: break;
    }
    /* near the beginning, where every path begins; near the end, where the bucket's counts stand; or anywhere */
    switch (below(3)) {
    case 0: i = below(words < 40 ? words : 40); break;
    case 1: i = words - 1 - below(words < 12 ? words : 12); break;
    default: i = below(words); break;
    }
    store[i] = spoilt(store[i], store[below(words)]);
}

static uint32_t tree(uint32_t what) {
    switch (what) {
    case PUSH: return card_tree_push(store, n, a, b, rank, tag, length);
    case POP: return card_tree_pop(store, n, a, b, out, no);
    case REPLACE: return card_tree_replace(store, n, a, b, rank, tag, length, out, no);
    case HELD: return card_tree_held(store, n, a, b, out, no);
    case CLEAR: return card_tree_clear(store, n, a, b);
    default: break;
    }
    if (below(2) == 0) return card_tree_check(store, n, a, b, out, no);
    if (words > 20000 && below(20) != 0) return card_tree_held(store, n, a, b, out, no);
    mix(card_tree_mend(store, n, second, some(words), a, b, out, no));
    all(second, words + BEHIND);
    return card_tree_check(second, n, a, b, out, no);
}

static uint32_t fair(uint32_t what) {
    uint32_t flow = at % (below(30) == 0 ? 70 : 8), weight = below(20) == 0 ? word() % 1100u : 1 + flow;
    card_len ns = some(CARD_FAIR_WORDS);
    switch (what) {
    case PUSH:
    case REPLACE: return card_fair_push(state, ns, store, n, a, b, flow, weight, tag, length);
    case POP: return card_fair_pop(state, ns, store, n, a, b, out, no);
    case HELD: return card_fair_held(store, n, a, b, out, no);
    case CLEAR: mix(card_tree_clear(store, n, a, b)); return card_fair_reset(state, ns, store, n, a, b);
    default: return card_fair_reset(state, ns, store, n, a, b);
    }
}

static uint32_t cluster(uint32_t what) {
    switch (what) {
    case PUSH: return card_cluster_push(store, n, a, b, rank, tag, length);
    case POP: return card_cluster_pop(store, n, a, b, out, no);
    case REPLACE: return card_cluster_replace(store, n, a, b, rank, tag, length, out, no);
    case CLEAR: return card_cluster_clear(store, n, a, b);
    default: return card_cluster_held(store, n, a, b, out, no);
    }
}

static uint32_t bucket(uint32_t what) {
    switch (what) {
    case PUSH: return card_bucket_push(bits, n2, store, n, a, b, rank, tag, length);
    case POP: return card_bucket_pop(bits, n2, store, n, a, b, out, no);
    case REPLACE: return card_bucket_replace(bits, n2, store, n, a, b, rank, tag, length, out, no);
    case CLEAR: return card_bucket_clear(bits, n2, store, n, a, b);
    default: return card_bucket_held(bits, n2, store, n, a, b, out, no);
    }
}

static uint32_t ports(uint32_t what) {
    uint32_t port = below(30) == 0 ? at % 20 : at % shape[2], i;
    card_len nl = some(CARD_LIMIT_WORDS(shape[2]));
    switch (what) {
    case PUSH: return card_ports_push(bits, n2, store, n, a, b, c, port, rank, tag, length);
    case POP: return card_ports_pop(bits, n2, store, n, a, b, c, port, out, no);
    case REPLACE: return card_ports_replace(bits, n2, store, n, a, b, c, port, rank, tag, length, out, no);
    case CLEAR:
        for (i = 0; i < shape[2]; i++) {
            limits[2 * i] = shape[1] / (2 * shape[2]);
            limits[2 * i + 1] = limits[2 * i] + below(shape[1]);
        }
        return card_ports_clear(bits, n2, store, n, a, b, c, limits, nl);
    default: return card_ports_held(bits, n2, store, n, a, b, c, port, out, no);
    }
}

static uint32_t clocked(uint32_t what) {
    card_len nm = some(1);
    uint32_t budget = below(20);
    switch (what) {
    case PUSH: return card_clocked_cycle(store, n, a, b, records, n3, mark, nm, about(CARD_PUSH), rank, tag, length, out, no);
    case POP: return card_clocked_cycle(store, n, a, b, records, n3, mark, nm, about(CARD_POP), rank, tag, length, out, no);
    case REPLACE: return card_clocked_cycle(store, n, a, b, records, n3, mark, nm, about(CARD_REPLACE), rank, tag, length, out, no);
    case CLEAR: return card_clocked_clear(store, n, a, b, records, n3, mark, nm);
    case HELD: return card_clocked_held(store, n, a, b, out, no);
    default: break;
    }
    if (below(2) == 0) return card_clocked_drain(store, n, a, b, records, n3, mark, nm, budget, out, no);
    return card_clocked_cycle(store, n, a, b, records, n3, mark, nm, about(CARD_IDLE), 0, 0, 0, out, no);
}

static uint32_t clocked_cluster(uint32_t what) {
    uint32_t budget = below(20);
    switch (what) {
    case PUSH: return card_clocked_cluster_cycle(store, n, a, b, stages, n3, about(CARD_PUSH), rank, tag, length, out, no);
    case POP: return card_clocked_cluster_cycle(store, n, a, b, stages, n3, about(CARD_POP), rank, tag, length, out, no);
    case REPLACE: return card_clocked_cluster_cycle(store, n, a, b, stages, n3, about(CARD_REPLACE), rank, tag, length, out, no);
    case CLEAR: return card_clocked_cluster_clear(store, n, a, b, stages, n3);
    case HELD: return card_clocked_cluster_held(store, n, a, b, out, no);
    default: break;
    }
    if (below(2) == 0) return card_clocked_cluster_drain(store, n, a, b, stages, n3, budget, out, no);
    return card_clocked_cluster_cycle(store, n, a, b, stages, n3, about(CARD_IDLE), 0, 0, 0, out, no);
}

static uint32_t packed(uint32_t what) {
    uint32_t heap = below(30) == 0 ? at % 300 : at % shape[0];
    switch (what) {
    case PUSH: return card_packed_push(store, n, a, b, heap, rank, tag, length);
    case POP: return card_packed_pop(store, n, a, b, heap, out, no);
    case REPLACE: return card_packed_replace(store, n, a, b, heap, rank, tag, length, out, no);
    case CLEAR: return card_packed_clear(store, n, a, b);
    default: return card_packed_held(store, n, a, b, heap, out, no);
    }
}

/* Of kind 1 most ranks are spread over the lines. */
static uint32_t line_rank(void) {
    if (shape[0] == 2 || at % 8 == 0) return rank;
    return (at % 8 < 4 ? rank * 4099u : rank) & 0xffffu;
}

static uint32_t lines(uint32_t what) {
    uint32_t r = line_rank();
    switch (what) {
    case PUSH: return card_lines_push(store, n, a, b, c, r, tag, length);
    case POP: return card_lines_pop(store, n, a, b, c, out, no);
    case REPLACE: return card_lines_replace(store, n, a, b, c, r, tag, length, out, no);
    case CLEAR: return card_lines_clear(store, n, a, b, c);
    default: return card_lines_held(store, n, a, b, c, out, no);
    }
}

static uint32_t clocked_lines(uint32_t what) {
    uint32_t budget = below(3), r = line_rank();
    switch (what) {
    case PUSH: return card_lines_clock_cycle(store, n, a, b, c, records, n3, about(CARD_PUSH), r, tag, length, out, no);
    case POP: return card_lines_clock_cycle(store, n, a, b, c, records, n3, about(CARD_POP), r, tag, length, out, no);
    case REPLACE: return card_lines_clock_cycle(store, n, a, b, c, records, n3, about(CARD_REPLACE), r, tag, length, out, no);
    case CLEAR: return card_lines_clock_clear(store, n, a, b, c, records, n3);
    case HELD: return card_lines_clock_held(store, n, a, b, c, out, no);
    default: break;
    }
    if (below(2) == 0) return card_lines_clock_drain(store, n, a, b, c, records, n3, budget, out, no);
    return card_lines_clock_cycle(store, n, a, b, c, records, n3, about(CARD_IDLE), 0, 0, 0, out, no);
}

/* A stretch of calls from a cleared store, then one in which stores, lengths and numbers are spoilt. */
static void work(uint32_t (*queue)(uint32_t)) {
    uint32_t i, what;
    for (hostile = 0; hostile < 2; hostile++) {
        for (i = 0; i < words + BEHIND; i++) store[i] = word();
        for (i = 0; i < words64; i++) bits[i] = (uint64_t)word() << 32;
        mood();
        for (i = 0; i < CALLS; i++) {
            what = turn();
            if (i == 0 || (hostile && below(50) == 0)) what = CLEAR;
            if (hostile && i % 50 > 25 && below(8) == 0) spoil();
            if (below(60) == 0) mood();
            draw();
            note(queue(what));
        }
        everything();
    }
}

/* The hash so far, and how often each number was answered since the line before. */
static void told(const char *name) {
    char text[17];
    uint32_t i;
    for (i = 0; i < 16; i++) text[i] = "0123456789abcdef"[hash >> (60 - 4 * i) & 15];
    text[16] = 0;
    printf("%s: %u calls, hash %s\n", name, (unsigned)calls, text);
    strange += numbers[13];
    for (i = 0; i < 13; i++) {
        if (numbers[i] != 0) printf("    %s %u\n", card_name(i), (unsigned)numbers[i]);
        numbers[i] = 0;
    }
}

static void sizes(void) {
    uint32_t i, j, k;
    mix(card_version());
    mix((uint32_t)card_fair_words());
    for (i = 0; i < 20; i++) {
        mix(card_bucket_bits(i));
        for (j = 0; j < 20; j++) {
            mix(card_tree_words(i, j));
            mix(card_cluster_words(i, j));
            mix(card_ports_bits(i, j));
            for (k = 0; k < 20; k++) mix(card_ports_words(i, j, k));
        }
        for (j = 0; j < 40; j++) {
            k = j < 20 ? word() : 65526 + j - 20;
            mix(card_tree_words(i, k));
            mix(card_cluster_words(k, i));
            mix(card_bucket_words(i, k));
        }
    }
    told("sizes");
}

/* Of the queues that came later, so that the lines before theirs stay as they were. */
static void more_sizes(void) {
    uint32_t i, j;
    for (i = 0; i < 20; i++)
        for (j = 0; j < 20; j++) {
            mix(card_packed_words(i, j));
            mix(card_packed_words(240 + i, j));
            mix(card_packed_words(word(), j));
            mix(card_packed_words(i, word()));
        }
}

static void line_sizes(void) {
    uint32_t i, j, k;
    for (i = 0; i < 4; i++)
        for (j = 0; j < 1030; j += j < 20 ? 1 : 82)
            for (k = 0; k < 1030; k += k < 20 ? 1 : 82) mix(card_lines_words(i, j, k));
}

/* A shape, what its slices need, and the work on it. */
static void on(uint32_t x, uint32_t y, uint32_t z, uint32_t (*queue)(uint32_t)) {
    shape[0] = x;
    shape[1] = y;
    shape[2] = z;
    words64 = 0;
    pending = y - 1;
    if (queue == cluster || queue == clocked_cluster) words = card_cluster_words(x, y);
    else if (queue == bucket || queue == ports) {
        words64 = queue == ports ? card_ports_bits(x, z) : card_bucket_bits(x);
        words = queue == ports ? card_ports_words(x, y, z) : card_bucket_words(x, y);
        pending = 0;
    } else if (queue == packed) {
        words = card_packed_words(x, y);
        pending = 0;
    } else if (queue == lines || queue == clocked_lines) {
        words = card_lines_words(x, y, z);
        pending = 1;
    } else words = card_tree_words(x, y);
    work(queue);
}

int main(void) {
    static const uint32_t trees[8][2] = {{2, 1}, {2, 3}, {4, 2}, {4, 4}, {8, 2}, {8, 3}, {2, 15}, {4, 8}};
    static const uint32_t clusters[6][2] = {{2, 1}, {2, 3}, {3, 4}, {7, 3}, {16, 2}, {4, 10}};
    static const uint32_t pools[5][2] = {{2, 1}, {2, 7}, {2, 64}, {2, 1000}, {3, 40}};
    static const uint32_t halls[5][3] = {{2, 6, 2}, {2, 60, 5}, {2, 40, 16}, {2, 9, 1}, {3, 10, 1}};
    static const uint32_t forests[8][2] = {{1, 1}, {1, 4}, {2, 3}, {3, 5}, {7, 2}, {256, 2}, {16, 8}, {1, 17}};
    static const uint32_t rows[6][3] = {{1, 1, 1}, {1, 4, 3}, {1, 128, 5}, {2, 1, 9}, {2, 8, 4}, {2, 4, 300}};
    uint32_t i;
    hash = (uint64_t)0xcbf29ce4u << 32 | 0x84222325u;
    sizes();
    for (i = 0; i < 8; i++) on(trees[i][0], trees[i][1], 0, tree);
    told("tree");
    for (i = 0; i < 6; i++) on(trees[i][0], trees[i][1], 0, fair);
    told("fair");
    for (i = 0; i < 6; i++) on(clusters[i][0], clusters[i][1], 0, cluster);
    told("cluster");
    for (i = 0; i < 5; i++) on(pools[i][0], pools[i][1], 0, bucket);
    told("bucket");
    for (i = 0; i < 5; i++) on(halls[i][0], halls[i][1], halls[i][2], ports);
    told("ports");
    for (i = 0; i < 8; i++) on(trees[i][0], trees[i][1], 0, clocked);
    told("clocked");
    for (i = 0; i < 6; i++) on(clusters[i][0], clusters[i][1], 0, clocked_cluster);
    told("clocked cluster");
    more_sizes();
    for (i = 0; i < 8; i++) on(forests[i][0], forests[i][1], 0, packed);
    told("packed");
    line_sizes();
    for (i = 0; i < 6; i++) on(rows[i][0], rows[i][1], rows[i][2], lines);
    told("lines");
    for (i = 0; i < 6; i++) on(rows[i][0], rows[i][1], rows[i][2], clocked_lines);
    told("clocked lines");
    return strange == 0 ? 0 : 1;
}
