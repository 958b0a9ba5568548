/*
 * Power goes at each instruction of a call: the call is made by another process, one instruction at a time, on a store that both have. At
 * every instruction each word of the store must be the one from before the call or the one from after it, and the mender must make a store
 * of it that passes the check. So what `cut.c` tries, any words old and any new, is all that a cut can leave. For Linux.
 */
#define _DEFAULT_SOURCE 1
#include "card.h"
#include "random.h"
#include <signal.h>
#include <stdio.h>
#include <string.h>
#include <sys/mman.h>
#include <sys/ptrace.h>
#include <sys/wait.h>
#include <unistd.h>

#define SHAPE CARD_TREE_WORDS(4, 3), 4, 3
#define WORDS CARD_TREE_WORDS(4, 3)

static uint32_t before[WORDS], after[WORDS], seen[WORDS], mended[WORDS], out[CARD_OUT_WORDS];
static uint32_t what, rank, tag, states;
static int failed = 0;

static void must(const char *text, int holds) {
    if (holds) return;
    printf("%s\n", text);
    failed = 1;
}

static void call(uint32_t *store) {
    if (what < 50) card_tree_push(store, SHAPE, rank, tag, 1);
    else if (what < 85) card_tree_pop(store, SHAPE, out, CARD_OUT_WORDS);
    else card_tree_replace(store, SHAPE, rank, tag, 1, out, CARD_OUT_WORDS);
}

/* What stands in the store at one instruction. */
static void look(const volatile uint32_t *store) {
    uint32_t i, other = 0;
    for (i = 0; i < WORDS; i++) {
        other |= seen[i] ^ store[i];
        seen[i] = store[i];
    }
    if (other == 0) return;
    states++;
    for (i = 0; i < WORDS; i++) must("a word that is neither old nor new", seen[i] == before[i] || seen[i] == after[i]);
    must("mend", card_tree_mend(seen, WORDS, mended, SHAPE, out, 1) == CARD_OK);
    must("check", card_tree_check(mended, SHAPE, out, 2) == CARD_OK && out[0] == 1);
}

static void by_steps(uint32_t *store) {
    int status = 0;
    pid_t child = fork();
    if (child == 0) {
        ptrace(PTRACE_TRACEME, 0, NULL, NULL);
        raise(SIGSTOP);
        call(store);
        _exit(0);
    }
    waitpid(child, &status, WUNTRACED);
    while (!WIFEXITED(status) && ptrace(PTRACE_SINGLESTEP, child, NULL, NULL) == 0) {
        waitpid(child, &status, 0);
        look(store);
    }
    if (!WIFEXITED(status)) kill(child, SIGKILL);
    must("the call was not made to its end", WIFEXITED(status) && memcmp(store, after, sizeof after) == 0);
}

int main(void) {
    uint32_t *store = (uint32_t *)mmap(NULL, sizeof before, PROT_READ | PROT_WRITE, MAP_SHARED | MAP_ANONYMOUS, -1, 0);
    must("no memory", store != MAP_FAILED);
    must("clear", card_tree_clear(before, SHAPE) == CARD_OK);
    for (tag = 1; tag <= 120 && !failed; tag++) {
        what = word() % (tag < 60 ? 60 : 100);
        rank = word() % 1000;
        memcpy(after, before, sizeof after);
        call(after);
        memcpy(store, before, sizeof before);
        memcpy(seen, before, sizeof before);
        by_steps(store);
        memcpy(before, after, sizeof before);
    }
    must("too little was seen", states > 300);
    return failed;
}
