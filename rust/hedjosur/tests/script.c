/*
 * Document 01's script and its case of the smallest device, with a discard, from C. Says where the
 * first difference is and ends with 1, or ends with 0.
 */
#include <stdio.h>
#include <string.h>

#include "hedjosur.h"

#define CHECK(condition)                                              \
    do {                                                              \
        if (!(condition)) {                                           \
            fprintf(stderr, "line %d: not %s\n", __LINE__, #condition); \
            return 1;                                                 \
        }                                                             \
    } while (0)

static uint8_t state[5702];
static uint32_t spare[1728];
static uint32_t plan[64];

static uint64_t flush(uint32_t from, uint32_t to)
{
    uint32_t batch[64];
    size_t length = 0;
    while (from <= to)
        batch[length++] = from++;
    return hedjosur_flush(state, 5702, spare, 1728, batch, length, plan, 64);
}

static uint64_t lookup(uint32_t page)
{
    return hedjosur_lookup(state, 5702, spare, 1728, page);
}

static int script(void)
{
    static const uint32_t scattered[] = {75, 78, 82}, others[] = {72, 73, 80};
    static const uint8_t last[10] = {200, 55, 2, 0, 0x78, 0xFF, 0xFF, 0xFF, 0, 0};
    static const uint8_t told[24] = {72, 8, 79, 0, 245, 0, 0, 0, 2, 1, 75, 0,
                                     75, 7, 89, 0, 179, 0, 0, 0, 3, 0, 0, 0};
    static uint8_t out[HEDJOSUR_LISTING_LEN], why[HEDJOSUR_WHY_LEN];
    uint64_t answer;

    CHECK(hedjosur_state_len(9, 64, 256, 1) == sizeof state);
    CHECK(hedjosur_spare_len(9, 64, 256, 1) == sizeof spare / sizeof *spare);
    CHECK(hedjosur_state_len(9, 64, 256, 16) == 0);
    CHECK(hedjosur_format(9, 64, 256, 1, state, 5702, spare, 1728) == 0);

    CHECK(hedjosur_count(flush(0, 63)) == 64);
    CHECK(hedjosur_first_page(flush(200, 255)) == 64);
    CHECK(hedjosur_first_page(flush(16, 31)) == 128);
    CHECK(plan[0] == 0 && plan[63] == 63);
    answer = hedjosur_flush(state, 5702, spare, 1728, scattered, 3, plan, 64);
    CHECK(hedjosur_refusal_of(answer) == HEDJOSUR_ACCEPTED);
    CHECK(hedjosur_first_page(answer) == 192 && hedjosur_count(answer) == 3);
    answer = hedjosur_flush(state, 5702, spare, 1728, others, 3, plan, 64);
    CHECK(hedjosur_first_page(answer) == 256 && hedjosur_count(answer) == 3);

    answer = lookup(50);
    CHECK(hedjosur_found(answer) && hedjosur_reads(answer) == 1);
    CHECK(hedjosur_page(answer) == 50 && hedjosur_levels(answer) == 2);
    answer = lookup(82);
    CHECK(hedjosur_found(answer) && hedjosur_reads(answer) == 1);
    CHECK(hedjosur_page(answer) == 194 && hedjosur_predicted(answer) == 194);
    answer = answer - ((uint64_t)1 << 20);
    CHECK(hedjosur_predicted(answer) == 193 && hedjosur_reads(answer) == 2);
    answer = lookup(100);
    CHECK(hedjosur_refusal_of(answer) == HEDJOSUR_ACCEPTED);
    CHECK(!hedjosur_found(answer) && hedjosur_reads(answer) == 0);
    CHECK(hedjosur_refusal_of(lookup(256)) == HEDJOSUR_OUT_OF_RANGE);

    memset(why, 0xA5, sizeof why);
    answer = hedjosur_why(state, 5702, 78, why, sizeof why);
    CHECK(hedjosur_refusal_of(answer) == HEDJOSUR_ACCEPTED && hedjosur_entries(answer) == 2);
    CHECK(memcmp(why, told, sizeof told) == 0 && why[24] == 0xA5 && why[6143] == 0xA5);
    answer = hedjosur_why(state, 5702, 76, why, sizeof why);
    CHECK(hedjosur_entries(answer) == 2 && why[8] == 2 && why[9] == 0 && why[10] == 0);
    CHECK(why[20] == 2 && why[21] == 0 && why[24] == 0xA5);

    CHECK(hedjosur_first_page(flush(32, 90)) == 320);
    answer = lookup(78);
    CHECK(hedjosur_page(answer) == 366 && hedjosur_levels(answer) == 1);
    CHECK(hedjosur_records(hedjosur_compact(state, 5702, 0)) == 4);
    answer = hedjosur_list(state, 5702, 0, out, sizeof out);
    CHECK(hedjosur_records(answer) == 4);
    CHECK(memcmp(out + 30, last, sizeof last) == 0);
    answer = hedjosur_agree(state, 5702, spare, 1728, state, 5702, spare, 1728);
    CHECK(hedjosur_refusal_of(answer) == HEDJOSUR_ACCEPTED && hedjosur_yes(answer));
    return 0;
}

static int smallest_device(void)
{
    static const uint32_t page[] = {0};
    static uint8_t why[HEDJOSUR_WHY_LEN] = {0xA5};
    uint32_t erased[3];
    uint64_t answer;

    CHECK(hedjosur_format(3, 4, 4, 0, state, 5659, spare, 12) == 0);
    for (uint32_t block = 0; block < 2; block++) {
        answer = hedjosur_flush(state, 5659, spare, 12, page, 1, plan, 4);
        CHECK(hedjosur_first_page(answer) == 4 * block && hedjosur_count(answer) == 1);
    }
    answer = hedjosur_flush(state, 5659, spare, 12, page, 1, plan, 4);
    CHECK(hedjosur_refusal_of(answer) == HEDJOSUR_NO_FREE_BLOCK);
    answer = hedjosur_collect(state, 5659, spare, 12, plan, 4, erased, 3);
    CHECK(hedjosur_refusal_of(answer) == HEDJOSUR_ACCEPTED);
    CHECK(hedjosur_first_page(answer) == 8 && hedjosur_count(answer) == 1);
    CHECK(hedjosur_erased(answer) == 2 && erased[0] == 0 && erased[1] == 1);
    CHECK(plan[0] == 4);
    answer = hedjosur_lookup(state, 5659, spare, 12, 0);
    CHECK(hedjosur_page(answer) == 8 && hedjosur_reads(answer) == 1);

    CHECK(hedjosur_discard(state, 5659, spare, 12, 0) == 0);
    CHECK(hedjosur_lookup(state, 5659, spare, 12, 0) == 0);
    CHECK(hedjosur_why(state, 5659, 0, why, sizeof why) == 0 && why[0] == 0xA5);
    answer = hedjosur_why(state, 5659, 4, why, sizeof why);
    CHECK(answer == (uint64_t)HEDJOSUR_OUT_OF_RANGE << 60);
    answer = hedjosur_why(state, 5659, 4, why, sizeof why - 1);
    CHECK(answer == (uint64_t)HEDJOSUR_BAD_LENGTH << 60 && why[0] == 0xA5);
    answer = hedjosur_discard(state, 5659, spare, 12, 4);
    CHECK(answer == (uint64_t)HEDJOSUR_OUT_OF_RANGE << 60);
    answer = hedjosur_collect(state, 5659, spare, 12, plan, 4, erased, 3);
    CHECK(hedjosur_refusal_of(answer) == HEDJOSUR_ACCEPTED && hedjosur_count(answer) == 0);
    CHECK(hedjosur_erased(answer) == 1 && erased[0] == 2);
    return 0;
}

int main(void)
{
    return script() || smallest_device();
}
