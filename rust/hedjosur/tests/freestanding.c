/*
 * Links every function of the archive without a C library: beside memcpy, memmove and
 * memset, which stand here, nothing is missing. It is not run.
 */
#define HEDJOSUR_ASSERT(condition) ((void)0)

#include "hedjosur.h"

void *memcpy(void *to, const void *from, size_t length);
void *memmove(void *to, const void *from, size_t length);
void *memset(void *to, int byte, size_t length);
void _start(void);

void *memcpy(void *to, const void *from, size_t length)
{
    (void)from, (void)length;
    return to;
}

void *memmove(void *to, const void *from, size_t length)
{
    (void)from, (void)length;
    return to;
}

void *memset(void *to, int byte, size_t length)
{
    (void)byte, (void)length;
    return to;
}

void _start(void)
{
    static uint8_t state[HEDJOSUR_STATE_LEN(3, 4, 4, 0)], out[HEDJOSUR_WHY_LEN];
    static uint32_t spare[HEDJOSUR_SPARE_LEN(3, 4, 4, 0)], plan[4], erased[3];
    static uint8_t plain[HEDJOSUR_PLAIN_STATE_LEN(3, 4, 4, 0)];
    static volatile uint64_t answer;

    answer = hedjosur_state_len(3, 4, 4, 0);
    answer = hedjosur_spare_len(3, 4, 4, 0);
    answer = hedjosur_format(3, 4, 4, 0, state, sizeof state, spare, 12);
    answer = hedjosur_flush(state, sizeof state, spare, 12, plan, 1, plan + 1, 3);
    answer = hedjosur_lookup(state, sizeof state, spare, 12, 0);
    answer = hedjosur_discard(state, sizeof state, spare, 12, 0);
    answer = hedjosur_collect(state, sizeof state, spare, 12, plan, 4, erased, 3);
    answer = hedjosur_compact(state, sizeof state, 0);
    answer = hedjosur_agree(state, sizeof state, spare, 12, state, sizeof state, spare, 12);
    answer = hedjosur_list(state, sizeof state, 0, out, HEDJOSUR_LISTING_LEN);
    answer = hedjosur_why(state, sizeof state, 0, out, sizeof out);
    answer = hedjosur_plain_state_len(3, 4, 4, 0);
    answer = hedjosur_plain_format(3, 4, 4, 0, plain, sizeof plain);
    answer = hedjosur_plain_flush(plain, sizeof plain, plan, 1, plan + 1, 3);
    answer = hedjosur_plain_lookup(plain, sizeof plain, 0);
    answer = hedjosur_plain_discard(plain, sizeof plain, 0);
    answer = hedjosur_plain_collect(plain, sizeof plain, plan, 4, erased, 3);
    for (;;)
        (void)answer;
}
