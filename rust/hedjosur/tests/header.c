/*
 * The header, as C99, C11 and C++: its lengths beside the archive's, the calls on a
 * device, reasons read from their bytes, its words, and accessors that insist on an
 * accepted answer. Says where the first difference is and ends with 1, or ends with 0.
 *
 * With IGNORE_A_REFUSAL it must not compile without a warning.
 */
static int insisted;
#define HEDJOSUR_ASSERT(condition) ((condition) ? (void)0 : (void)insisted++)

#include <stdio.h>
#include <string.h>

#include "hedjosur.h"

#define CHECK(condition)                                              \
    do {                                                              \
        if (!(condition)) {                                           \
            fprintf(stderr, "line %d: not %s\n", __LINE__, #condition); \
            return 1;                                                 \
        }                                                             \
    } while (0)

#define COUNT(array) (sizeof(array) / sizeof *(array))

/* The smallest device, in static arrays. */
static uint8_t state[HEDJOSUR_STATE_LEN(3, 4, 4, 0)], other_state[sizeof state];
static uint32_t spare[HEDJOSUR_SPARE_LEN(3, 4, 4, 0)], other_spare[COUNT(spare)];
static const struct hedjosur_device device = {state, sizeof state, spare, COUNT(spare)};
static const struct hedjosur_device other = {
    other_state, sizeof other_state, other_spare, COUNT(other_spare)
};
static uint8_t plain_state[HEDJOSUR_PLAIN_STATE_LEN(3, 4, 4, 0)];
static const struct hedjosur_plain_device plain = {plain_state, sizeof plain_state};

/* The macros' lengths are the functions', at all limits and beside them. */
static int lengths(void)
{
    static const uint32_t blocks[] = {0, 1, 2, 3, 4, 129, 4096, 4097, 0xFFFFFFFF};
    static const uint32_t pages[] = {0, 3, 4, 64, 256, 257, 0x80000000, 0xFFFFFFFF};
    static const uint32_t bounds[] = {0, 1, 15, 16, 0xFFFFFFFF};
    size_t i, j, k, l;
    for (i = 0; i < COUNT(blocks); i++)
        for (j = 0; j < COUNT(pages); j++)
            for (k = 0; k < COUNT(bounds); k++) {
                uint32_t m = blocks[i], b = pages[j], g = bounds[k];
                uint32_t most = (uint32_t)(((uint64_t)m - 1) * b / 2);
                uint32_t logical[9];
                logical[0] = 0, logical[1] = 1, logical[2] = 8, logical[3] = 9;
                logical[4] = 256, logical[5] = 257, logical[6] = most;
                logical[7] = most + 1, logical[8] = 0xFFFFFFFF;
                for (l = 0; l < COUNT(logical); l++) {
                    uint32_t n = logical[l];
                    CHECK(HEDJOSUR_STATE_LEN(m, b, n, g) == hedjosur_state_len(m, b, n, g));
                    CHECK(HEDJOSUR_SPARE_LEN(m, b, n, g) == hedjosur_spare_len(m, b, n, g));
                    CHECK(HEDJOSUR_PLAIN_STATE_LEN(m, b, n, g) ==
                          hedjosur_plain_state_len(m, b, n, g));
                }
            }
    CHECK(HEDJOSUR_GROUPS(256) == 1 && HEDJOSUR_GROUPS(257) == 2);
    return 0;
}

/* Document 01's case of the smallest device. */
static int calls(void)
{
    static const uint32_t page[] = {0};
    static uint8_t out[HEDJOSUR_LISTING_LEN], why[HEDJOSUR_WHY_LEN];
    uint32_t plan[4], erased[3], records = 77, entries = 77;
    struct hedjosur_flushed flushed = {7, 7};
    struct hedjosur_place place = {7, 7, 7, 7};
    struct hedjosur_reason reason;
    struct hedjosur_collected collected = {7, 7, 7};
    int yes = 7;

    CHECK(hedjosur_device_format(&device, 3, 4, 5, 0) == HEDJOSUR_BAD_NUMBERS);
    CHECK(hedjosur_device_format(&device, 3, 4, 4, 0) == HEDJOSUR_ACCEPTED);
    CHECK(hedjosur_device_format(&other, 3, 4, 4, 0) == HEDJOSUR_ACCEPTED);
    CHECK(hedjosur_device_lookup(&device, 0, &place) == HEDJOSUR_ACCEPTED);
    CHECK(!place.found && place.page == 0 && place.predicted == 0 && place.levels == 0);
    CHECK(hedjosur_device_why(&device, 4, why, sizeof why, &entries) == HEDJOSUR_OUT_OF_RANGE);
    CHECK(hedjosur_device_why(&device, 0, why, sizeof out, &entries) == HEDJOSUR_BAD_LENGTH);
    CHECK(entries == 77);
    CHECK(hedjosur_device_why(&device, 0, why, sizeof why, &entries) == HEDJOSUR_ACCEPTED);
    CHECK(entries == 0);
    CHECK(hedjosur_device_flush(&device, page, 1, plan, 4, &flushed) == HEDJOSUR_ACCEPTED);
    CHECK(flushed.first_page == 0 && flushed.count == 1 && plan[0] == 0);
    CHECK(hedjosur_device_flush(&device, page, 1, plan, 4, &flushed) == HEDJOSUR_ACCEPTED);
    CHECK(hedjosur_device_flush(&device, page, 1, plan, 4, &flushed) == HEDJOSUR_NO_FREE_BLOCK);
    CHECK(flushed.first_page == 4);
    CHECK(hedjosur_device_collect(&device, plan, 4, erased, 2, &collected) == HEDJOSUR_BAD_LENGTH);
    CHECK(collected.count == 7);
    CHECK(hedjosur_device_collect(&device, plan, 4, erased, 3, &collected) == HEDJOSUR_ACCEPTED);
    CHECK(collected.first_page == 8 && collected.count == 1 && collected.erased == 2);
    CHECK(plan[0] == 4 && erased[0] == 0 && erased[1] == 1);
    CHECK(hedjosur_device_lookup(&device, 4, &place) == HEDJOSUR_OUT_OF_RANGE);
    CHECK(hedjosur_device_lookup(&device, 0, &place) == HEDJOSUR_ACCEPTED);
    CHECK(place.found && place.page == 8 && place.predicted == 8 && place.levels == 1);
    CHECK(hedjosur_device_compact(&device, 1, &records) == HEDJOSUR_OUT_OF_RANGE);
    CHECK(records == 77);
    CHECK(hedjosur_device_compact(&device, 0, &records) == HEDJOSUR_ACCEPTED && records == 1);
    CHECK(hedjosur_device_list(&device, 0, out, sizeof out, &records) == HEDJOSUR_ACCEPTED);
    CHECK(records == 1 && out[0] == 0 && out[4] == 8);
    CHECK(hedjosur_device_why(&device, 0, why, sizeof why, &entries) == HEDJOSUR_ACCEPTED);
    reason = hedjosur_reason_at(why, 0);
    CHECK(entries == 1 && reason.kind == HEDJOSUR_MEMBER && reason.level == 0);
    CHECK(reason.has_record && reason.start == 0 && reason.span == 0 && reason.word == 0);
    CHECK(reason.intercept == 8 && !reason.has_owner && reason.owner == 0);
    CHECK(hedjosur_device_why(&device, 1, why, sizeof why, &entries) == HEDJOSUR_ACCEPTED);
    reason = hedjosur_reason_at(why, 0);
    CHECK(entries == 1 && reason.kind == HEDJOSUR_NONE_COVERS);
    CHECK(!reason.has_record && reason.intercept == 0 && !reason.has_owner);
    CHECK(hedjosur_device_agree(&device, &device, &yes) == HEDJOSUR_ACCEPTED && yes == 1);
    CHECK(hedjosur_device_agree(&device, &other, &yes) == HEDJOSUR_ACCEPTED && yes == 0);
    CHECK(hedjosur_device_discard(&device, 4) == HEDJOSUR_OUT_OF_RANGE);
    CHECK(hedjosur_device_discard(&device, 0) == HEDJOSUR_ACCEPTED);
    CHECK(hedjosur_device_lookup(&device, 0, &place) == HEDJOSUR_ACCEPTED);
    CHECK(!place.found && place.page == 0 && place.predicted == 0 && place.levels == 0);
    CHECK(hedjosur_device_why(&device, 0, why, sizeof why, &entries) == HEDJOSUR_ACCEPTED);
    CHECK(entries == 0);
    CHECK(hedjosur_device_agree(&other, &other, &yes) == HEDJOSUR_ACCEPTED && yes == 1);
    CHECK(hedjosur_device_agree(&device, &other, &yes) == HEDJOSUR_ACCEPTED && yes == 0);
    return 0;
}

/* The same case in the plain engine, and an entry that is not sound. */
static int plain_calls(void)
{
    static const uint32_t page[] = {0};
    uint32_t plan[4], erased[3];
    struct hedjosur_flushed flushed = {7, 7};
    struct hedjosur_plain_place place = {7, 7};
    struct hedjosur_collected collected = {7, 7, 7};

    CHECK(sizeof plain_state == 38);
    CHECK(hedjosur_plain_device_format(&plain, 3, 4, 5, 0) == HEDJOSUR_BAD_NUMBERS);
    CHECK(hedjosur_plain_device_format(&plain, 3, 4, 4, 0) == HEDJOSUR_ACCEPTED);
    CHECK(hedjosur_plain_device_lookup(&plain, 0, &place) == HEDJOSUR_ACCEPTED);
    CHECK(!place.found && place.page == 0);
    CHECK(hedjosur_plain_device_flush(&plain, page, 1, plan, 4, &flushed) == HEDJOSUR_ACCEPTED);
    CHECK(flushed.first_page == 0 && flushed.count == 1 && plan[0] == 0);
    CHECK(hedjosur_plain_device_flush(&plain, page, 1, plan, 4, &flushed) == HEDJOSUR_ACCEPTED);
    CHECK(hedjosur_plain_device_flush(&plain, page, 1, plan, 4, &flushed) == HEDJOSUR_NO_FREE_BLOCK);
    CHECK(flushed.first_page == 4);
    CHECK(hedjosur_plain_device_collect(&plain, plan, 4, erased, 2, &collected) == HEDJOSUR_BAD_LENGTH);
    CHECK(collected.count == 7);
    CHECK(hedjosur_plain_device_collect(&plain, plan, 4, erased, 3, &collected) == HEDJOSUR_ACCEPTED);
    CHECK(collected.first_page == 8 && collected.count == 1 && collected.erased == 2);
    CHECK(plan[0] == 4 && erased[0] == 0 && erased[1] == 1);
    CHECK(hedjosur_plain_device_lookup(&plain, 4, &place) == HEDJOSUR_OUT_OF_RANGE);
    CHECK(hedjosur_plain_device_lookup(&plain, 0, &place) == HEDJOSUR_ACCEPTED);
    CHECK(place.found && place.page == 8 && plain_state[20] == 1 && plain_state[22] == 8);
    CHECK(hedjosur_plain_device_discard(&plain, 4) == HEDJOSUR_OUT_OF_RANGE);
    CHECK(hedjosur_plain_device_discard(&plain, 0) == HEDJOSUR_ACCEPTED);
    CHECK(hedjosur_plain_device_lookup(&plain, 0, &place) == HEDJOSUR_ACCEPTED);
    CHECK(!place.found && place.page == 0);
    memset(plain_state + 22, 0, 4);
    CHECK(hedjosur_plain_device_lookup(&plain, 0, &place) == HEDJOSUR_NOT_SOUND);
    CHECK(hedjosur_plain_device_lookup(&plain, 1, &place) == HEDJOSUR_ACCEPTED);
    CHECK(hedjosur_plain_device_flush(&plain, page, 0, plan, 4, &flushed) == HEDJOSUR_NOT_SOUND);
    return 0;
}

/* Each reason, with the most and the least that its fields hold. */
static int reasons(void)
{
    static const uint8_t why[] = {
        0, 0, 0, 0, 0, 0, 0, 0, 0, 0, 0, 0,
        100, 6, 4, 0, 0xCE, 0xFF, 0xFF, 0xFF, 1, 0, 0, 0,
        0, 255, 1, 2, 0, 0, 0, 0x80, 2, 0, 0, 0,
        255, 0, 0xFF, 0xFF, 0xFF, 0xFF, 0xFF, 0x7F, 2, 1, 0, 0,
        72, 8, 79, 0, 245, 0, 0, 0, 3, 0, 0, 0,
    };
    struct hedjosur_reason reason = hedjosur_reason_at(why, 0);
    CHECK(reason.level == 0 && reason.kind == HEDJOSUR_NONE_COVERS && !reason.has_record);
    reason = hedjosur_reason_at(why, 1);
    CHECK(reason.level == 1 && reason.kind == HEDJOSUR_OFF_THE_STRIDE && reason.has_record);
    CHECK(reason.start == 100 && reason.span == 6 && reason.word == 4);
    CHECK(reason.intercept == -50 && !reason.has_owner && reason.owner == 0);
    reason = hedjosur_reason_at(why, 2);
    CHECK(reason.kind == HEDJOSUR_NOT_OWNED && !reason.has_owner);
    CHECK(reason.span == 255 && reason.word == 513 && reason.intercept == INT32_MIN);
    reason = hedjosur_reason_at(why, 3);
    CHECK(reason.kind == HEDJOSUR_NOT_OWNED && reason.has_owner && reason.owner == 0);
    CHECK(reason.start == 255 && reason.word == 65535 && reason.intercept == INT32_MAX);
    reason = hedjosur_reason_at(why, 4);
    CHECK(reason.level == 4 && reason.kind == HEDJOSUR_MEMBER && reason.has_record);
    CHECK(strcmp(hedjosur_reason_text(reason.kind), "member") == 0);
    return 0;
}

static int words(void)
{
    char version[16];
    sprintf(version, "%d.%d.%d", HEDJOSUR_VERSION_MAJOR, HEDJOSUR_VERSION_MINOR,
            HEDJOSUR_VERSION_PATCH);
    CHECK(strcmp(version, hedjosur_version()) == 0);
    CHECK(strcmp(hedjosur_refusal_text(HEDJOSUR_ACCEPTED), "accepted") == 0);
    CHECK(strcmp(hedjosur_refusal_text(HEDJOSUR_NO_FREE_BLOCK), "too few blocks are free") == 0);
    CHECK(strcmp(hedjosur_refusal_text((enum hedjosur_refusal)15), "a refusal of a newer archive") == 0);
    return 0;
}

static int accessors_insist(void)
{
    static const uint32_t page[] = {0};
    uint32_t plan[4];
    uint64_t refused = hedjosur_flush(state, 3, spare, COUNT(spare), page, 1, plan, 4);
    CHECK(hedjosur_refusal_of(refused) == HEDJOSUR_BAD_NUMBERS && insisted == 0);
    CHECK(hedjosur_first_page(refused) == 0 && insisted == 1);
    CHECK(hedjosur_found(refused) == 0 && insisted == 2);
    return 0;
}

#ifdef IGNORE_A_REFUSAL
void ignored(void);
void ignored(void)
{
    hedjosur_device_format(&device, 3, 4, 4, 0);
}
#endif

int main(void)
{
    return lengths() || calls() || plain_calls() || reasons() || words() || accessors_insist();
}
