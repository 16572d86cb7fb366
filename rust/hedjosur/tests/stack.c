/*
 * The stack that each call needs: it is painted, the call is made, and the deepest
 * byte that changed tells. Prints a line for each call, 'name measured limit', the
 * limit that the header gives; ends with 1 where one was exceeded.
 *
 * What is measured is the most over histories that take the long ways: the largest
 * blocks, all bounds' extremes, groups so full that a flush compacts them, blocks
 * enough for a collection; for the plain engine devices on both sides of where the bits
 * for its pages become more.
 */
#define _POSIX_C_SOURCE 200809L

#include <pthread.h>
#include <stdio.h>
#include <stdlib.h>

#include "hedjosur.h"

#define STACK (512 * 1024)
#define PAINT UINT64_C(0x5AA5C33C0FF0F00F)

/* The calls, in the order of the header's limits. */
enum call {
    LEN, FORMAT, FLUSH, LOOKUP, DISCARD, COLLECT, COMPACT, AGREE, LIST, WHY,
    PLAIN_FORMAT, PLAIN_LOOKUP, PLAIN_DISCARD, PLAIN_FLUSH, PLAIN_COLLECT, CALLS
};

static const struct {
    const char *name;
    size_t limit;
} table[CALLS] = {
    [LEN] = {"the lengths", HEDJOSUR_STACK_LEN},
    [FORMAT] = {"format", HEDJOSUR_STACK_FORMAT},
    [FLUSH] = {"flush", HEDJOSUR_STACK_FLUSH},
    [LOOKUP] = {"lookup", HEDJOSUR_STACK_LOOKUP},
    [DISCARD] = {"discard", HEDJOSUR_STACK_DISCARD},
    [COLLECT] = {"collect", HEDJOSUR_STACK_COLLECT},
    [COMPACT] = {"compact", HEDJOSUR_STACK_COMPACT},
    [AGREE] = {"agree", HEDJOSUR_STACK_AGREE},
    [LIST] = {"list", HEDJOSUR_STACK_LIST},
    [WHY] = {"why", HEDJOSUR_STACK_WHY},
    [PLAIN_FORMAT] = {"plain format", HEDJOSUR_STACK_PLAIN_FORMAT},
    [PLAIN_LOOKUP] = {"plain lookup", HEDJOSUR_STACK_PLAIN_LOOKUP},
    [PLAIN_DISCARD] = {"plain discard", HEDJOSUR_STACK_PLAIN_DISCARD},
    [PLAIN_FLUSH] = {"plain flush", HEDJOSUR_STACK_PLAIN_FLUSH},
    [PLAIN_COLLECT] = {"plain collect", HEDJOSUR_STACK_PLAIN_COLLECT},
};

static size_t measured[CALLS];
static uint64_t stack[STACK / sizeof(uint64_t)] __attribute__((aligned(4096)));

static inline uint64_t *stack_pointer(void)
{
    uint64_t *here;
    __asm__ volatile("movq %%rsp, %0" : "=r"(here));
    return here;
}

/* Paints all that lies beneath this function's own frame. */
__attribute__((noinline)) static void paint(void)
{
    uint64_t *end = stack_pointer() - 16;
    for (volatile uint64_t *word = stack; word < end; word++)
        *word = PAINT;
}

/* Notes how far beneath `from` the stack was written. */
__attribute__((noinline)) static void note(enum call call, const uint64_t *from)
{
    const volatile uint64_t *word = stack;
    while (*word == PAINT)
        word++;
    if (word == stack) {
        fprintf(stderr, "%s needs more than %d bytes\n", table[call].name, STACK);
        exit(1);
    }
    size_t depth = (size_t)((const char *)from - (const char *)(uintptr_t)word);
    if (depth > measured[call])
        measured[call] = depth;
}

static uint64_t answer;

/* Makes a call on a painted stack. */
#define MEASURED(call, expression)          \
    do {                                    \
        const uint64_t *from = stack_pointer(); \
        paint();                            \
        answer = (expression);              \
        note(call, from);                   \
    } while (0)

/* Ends where the last call was refused. */
static void accepted(void)
{
    enum hedjosur_refusal refusal = hedjosur_refusal_of(answer);
    if (refusal != HEDJOSUR_ACCEPTED) {
        fprintf(stderr, "%s\n", hedjosur_refusal_text(refusal));
        exit(1);
    }
}

static uint64_t random_state = 1;

static uint32_t below(uint32_t bound)
{
    random_state = random_state * UINT64_C(6364136223846793005) + UINT64_C(1442695040888963407);
    return (uint32_t)(random_state >> 33) % bound;
}

/* A batch: scattered pages, or a run with gaps, in one group or in all. */
static size_t make_batch(uint32_t *batch, uint32_t b, uint32_t n, uint32_t kind)
{
    uint32_t span = kind % 2 == 0 && n > 256 ? 256 : n, page = below(n - span + 1);
    uint32_t base = page;
    size_t length = 0;
    while (length < b) {
        batch[length++] = kind < 2 ? base + below(span) : page;
        page += 1 + below(kind + 1);
        if (page >= n)
            break;
    }
    return length;
}

/* A history on a device of this size: flushes, collections, the other calls between. */
static void history(uint32_t m, uint32_t b, uint32_t g, int flushes)
{
    uint32_t n = (m - 1) * b / 2;
    size_t state_len = HEDJOSUR_STATE_LEN(m, b, n, g), spare_len = HEDJOSUR_SPARE_LEN(m, b, n, g);
    uint8_t *state = malloc(state_len);
    uint32_t *spare = malloc(4 * spare_len), *erased = malloc(4 * m), *plan = malloc(4 * b);
    uint32_t batch[256];
    static uint8_t listing[HEDJOSUR_LISTING_LEN], why[HEDJOSUR_WHY_LEN];

    if (!state || !spare || !erased || !plan)
        exit(1);
    MEASURED(LEN, hedjosur_state_len(m, b, n, g));
    MEASURED(LEN, hedjosur_spare_len(m, b, n, g));
    MEASURED(FORMAT, hedjosur_format(m, b, n, g, state, state_len, spare, spare_len));
    for (int i = 0; i < flushes; i++) {
        size_t length = make_batch(batch, b, n, (uint32_t)i % 5);
        MEASURED(FLUSH, hedjosur_flush(state, state_len, spare, spare_len, batch, length, plan, b));
        if (hedjosur_refusal_of(answer) == HEDJOSUR_NO_FREE_BLOCK)
            MEASURED(COLLECT, hedjosur_collect(state, state_len, spare, spare_len, plan, b, erased, m));
        accepted();
        MEASURED(LOOKUP, hedjosur_lookup(state, state_len, spare, spare_len, below(n)));
        MEASURED(DISCARD, hedjosur_discard(state, state_len, spare, spare_len, below(n)));
        MEASURED(LIST, hedjosur_list(state, state_len, below(n) / 256, listing, sizeof listing));
        MEASURED(WHY, hedjosur_why(state, state_len, below(n), why, sizeof why));
        if (i % 16 == 15) {
            MEASURED(AGREE, hedjosur_agree(state, state_len, spare, spare_len,
                                           state, state_len, spare, spare_len));
            MEASURED(COMPACT, hedjosur_compact(state, state_len, below(n) / 256));
            MEASURED(COLLECT, hedjosur_collect(state, state_len, spare, spare_len, plan, b, erased, m));
        }
    }
    free(state);
    free(spare);
    free(erased);
    free(plan);
}

/*
 * The same in the plain engine. Every second flush writes a single page, so that there
 * are blocks for a collection to take.
 */
static void plain_history(uint32_t m, uint32_t b, int flushes)
{
    uint32_t n = (m - 1) * b / 2;
    size_t state_len = HEDJOSUR_PLAIN_STATE_LEN(m, b, n, 0);
    uint8_t *state = malloc(state_len);
    uint32_t *erased = malloc(4 * m), *plan = malloc(4 * b);
    uint32_t batch[256];

    if (!state || !erased || !plan)
        exit(1);
    MEASURED(LEN, hedjosur_plain_state_len(m, b, n, 0));
    MEASURED(PLAIN_FORMAT, hedjosur_plain_format(m, b, n, 0, state, state_len));
    for (int i = 0; i < flushes; i++) {
        size_t length = i % 2 == 1 ? 1 : make_batch(batch, b, n, (uint32_t)i % 5);
        MEASURED(PLAIN_FLUSH, hedjosur_plain_flush(state, state_len, batch, length, plan, b));
        if (hedjosur_refusal_of(answer) == HEDJOSUR_NO_FREE_BLOCK)
            MEASURED(PLAIN_COLLECT, hedjosur_plain_collect(state, state_len, plan, b, erased, m));
        accepted();
        MEASURED(PLAIN_LOOKUP, hedjosur_plain_lookup(state, state_len, batch[0]));
        MEASURED(PLAIN_DISCARD, hedjosur_plain_discard(state, state_len, below(n)));
        if (i % 16 == 15)
            MEASURED(PLAIN_COLLECT, hedjosur_plain_collect(state, state_len, plan, b, erased, m));
    }
    free(state);
    free(erased);
    free(plan);
}

static void *histories(void *unused)
{
    history(3, 4, 0, 50);
    history(9, 64, 1, 200);
    history(9, 256, 15, 400);
    history(33, 256, 0, 400);
    history(33, 256, 15, 400);
    history(4096, 256, 0, 48);
    plain_history(3, 4, 50);
    plain_history(33, 256, 400);
    plain_history(128, 256, 48);
    plain_history(129, 256, 48);
    plain_history(1024, 256, 48);
    plain_history(1025, 256, 48);
    plain_history(4096, 256, 48);
    return unused;
}

int main(void)
{
    pthread_attr_t attributes;
    pthread_t thread;
    int exceeded = 0;

    if (pthread_attr_init(&attributes) || pthread_attr_setstack(&attributes, stack, STACK) ||
        pthread_create(&thread, &attributes, histories, NULL) || pthread_join(thread, NULL))
        return 1;
    for (int call = 0; call < CALLS; call++) {
        printf("%-20s %6zu %6zu\n", table[call].name, measured[call], table[call].limit);
        exceeded |= measured[call] > table[call].limit;
    }
    return exceeded;
}
