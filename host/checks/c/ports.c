/* Several ports on one pool from C: NULL with length 0, sizes, limits, and a few elements of two ports. */
#include "card.h"
#include <stdio.h>

static int failed = 0;

static void number(const char *what, uint32_t got, uint32_t expected) {
    if (got == expected) return;
    printf("%s: %u %s, expected %u\n", what, (unsigned)got, card_name(got), (unsigned)expected);
    failed = 1;
}

#define BITS CARD_PORTS_BITS(2, 2)
#define WORDS CARD_PORTS_WORDS(2, 3, 2)

static uint64_t bits[BITS];
static uint32_t words[WORDS], out[CARD_OUT_WORDS];

static uint32_t clear(const uint32_t *limits, size_t len) {
    return card_ports_clear(bits, BITS, words, WORDS, 2, 3, 2, limits, len);
}
static uint32_t push(uint32_t port, uint32_t rank, uint32_t tag) {
    return card_ports_push(bits, BITS, words, WORDS, 2, 3, 2, port, rank, tag, 64);
}
static uint32_t held(uint32_t port) {
    number("held", card_ports_held(bits, BITS, words, WORDS, 2, 3, 2, port, out, 1), CARD_OK);
    return out[0];
}

int main(void) {
    const uint32_t bad = CARD_BAD_SHAPE;
    const uint32_t limits[CARD_LIMIT_WORDS(2)] = {1, 3, 0, 9}, crossed[CARD_LIMIT_WORDS(2)] = {2, 1, 0, 9};
    const uint32_t large[CARD_LIMIT_WORDS(2)] = {2, 3, 2, 9}, wraps[CARD_LIMIT_WORDS(2)] = {2147483648u, 4294967295u, 2147483648u, 4294967295u};
    uint32_t storeys, ports;
    for (storeys = 2; storeys <= 3; storeys++)
        for (ports = 1; ports <= 16; ports++) {
            number("bits", card_ports_bits(storeys, ports), CARD_PORTS_BITS(storeys, ports));
            number("words", card_ports_words(storeys, 65536, ports), CARD_PORTS_WORDS(storeys, 65536, ports));
        }
    number("no ports", card_ports_bits(2, 0), 0);
    number("17 ports", card_ports_words(2, 3, 17), 0);
    number("no nodes", card_ports_words(2, 0, 1), 0);
    number("four storeys", card_ports_words(4, 3, 1), 0);

    /* no store, no limits */
    number("clear", card_ports_clear(NULL, 0, NULL, 0, 2, 3, 2, limits, 4), bad);
    number("push", card_ports_push(NULL, 0, NULL, 0, 2, 3, 2, 0, 5, 50, 64), bad);
    number("pop", card_ports_pop(NULL, 0, NULL, 0, 2, 3, 2, 0, out, 3), bad);
    number("replace", card_ports_replace(NULL, 0, NULL, 0, 2, 3, 2, 0, 5, 50, 64, out, 3), bad);
    number("held", card_ports_held(NULL, 0, NULL, 0, 2, 3, 2, 0, out, 1), bad);
    number("no limits", clear(NULL, 0), bad);
    number("few limits", clear(limits, 3), bad);
    number("a floor above its ceiling", clear(crossed, 4), bad);
    number("floors above the nodes", clear(large, 4), bad);
    number("floors that would wrap", clear(wraps, 4), bad);
    number("17 ports", card_ports_clear(bits, BITS, words, WORDS, 2, 3, 17, limits, 4), bad);
    number("clear with a word less", card_ports_clear(bits, BITS, words, WORDS - 1, 2, 3, 2, limits, 4), bad);
    number("clear", clear(limits, 4), CARD_OK);

    number("push", push(1, 7, 1), CARD_OK);
    number("push", push(1, 7, 2), CARD_OK);
    number("a push that would take another's floor", push(1, 7, 3), CARD_FULL);
    number("a push below the floor", push(0, 4095, 4), CARD_OK);
    number("a push in a full pool", push(0, 5, 5), CARD_FULL);
    number("a port that there is not", push(2, 4096, 0), CARD_NO_PORT);
    number("a rank above the last", push(1, 4096, 0), CARD_BAD_RANK);
    number("no tag", push(1, 4095, 0), CARD_NO_TAG);
    number("held at port 0", held(0), 1);
    number("held at port 1", held(1), 2);
    number("held", card_ports_held(bits, BITS, words, WORDS, 2, 3, 2, 2, out, 1), CARD_NO_PORT);

    /* no room for the answer */
    number("pop", card_ports_pop(bits, BITS, words, WORDS, 2, 3, 2, 1, NULL, 0), bad);
    number("replace", card_ports_replace(bits, BITS, words, WORDS, 2, 3, 2, 1, 5, 50, 64, NULL, 0), bad);
    number("held", card_ports_held(bits, BITS, words, WORDS, 2, 3, 2, 1, NULL, 0), bad);

    number("replace", card_ports_replace(bits, BITS, words, WORDS, 2, 3, 2, 1, 3, 9, 96, out, 3), CARD_OK);
    number("what came out", out[0], 7);
    number("its tag", out[1], 1);
    number("its length", out[2], 64);
    number("pop", card_ports_pop(bits, BITS, words, WORDS, 2, 3, 2, 1, out, 3), CARD_OK);
    number("what came out", out[0], 3);
    number("its tag", out[1], 9);
    number("its length", out[2], 96);
    number("pop", card_ports_pop(bits, BITS, words, WORDS, 2, 3, 2, 0, out, 3), CARD_OK);
    number("what came out", out[0], 4095);
    number("pop", card_ports_pop(bits, BITS, words, WORDS, 2, 3, 2, 0, out, 3), CARD_EMPTY);
    number("a refusal's rank", out[0], 0);
    return failed;
}
