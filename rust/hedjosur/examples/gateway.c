/*
 * A driver in full: a hallway gateway that packs the temperature reports of some flats
 * into pages on raw flash and finds them again. The chip is one in memory; what a
 * driver of your own needs are the gateway_ functions.
 *
 *     cc -I rust/hedjosur/include rust/hedjosur/examples/gateway.c \
 *        crates/export/out/libexport.a -o gateway && ./gateway
 */
#include <stdio.h>
#include <stdlib.h>
#include <string.h>

#include "hedjosur.h"

/* The device, and the numbers in a page's spare area. */
enum { BLOCKS = 17, BLOCK_PAGES = 16, LOGICAL_PAGES = 128, BOUND = 1, NAMES = 2 * BOUND + 1 };
/* A page holds seven reports of nine bytes. */
enum { REPORT = 9, REPORTS = 7, PAGE = REPORTS * REPORT };

static void chip_erase(uint32_t block);
static void chip_program(uint32_t page, const uint8_t *data, const uint32_t *names);
static const uint8_t *chip_read(uint32_t page);

static uint8_t state[HEDJOSUR_STATE_LEN(BLOCKS, BLOCK_PAGES, LOGICAL_PAGES, BOUND)];
static uint32_t spare[HEDJOSUR_SPARE_LEN(BLOCKS, BLOCK_PAGES, LOGICAL_PAGES, BOUND)];
static const struct hedjosur_device device = {
    state, sizeof state, spare, sizeof spare / sizeof *spare
};

/* Formats the table and erases every block. */
static enum hedjosur_refusal gateway_open(void)
{
    enum hedjosur_refusal refusal =
        hedjosur_device_format(&device, BLOCKS, BLOCK_PAGES, LOGICAL_PAGES, BOUND);
    for (uint32_t block = 0; refusal == HEDJOSUR_ACCEPTED && block < BLOCKS; block++)
        chip_erase(block);
    return refusal;
}

/* Frees blocks: copies pages by the plan, ascending, then erases what is listed. */
static enum hedjosur_refusal gateway_collect(void)
{
    uint32_t plan[BLOCK_PAGES], erased[BLOCKS];
    struct hedjosur_collected moved;
    enum hedjosur_refusal refusal =
        hedjosur_device_collect(&device, plan, BLOCK_PAGES, erased, BLOCKS, &moved);
    if (refusal != HEDJOSUR_ACCEPTED)
        return refusal;
    for (uint32_t i = 0, page = moved.first_page; i < moved.count; i++, page++)
        chip_program(page, chip_read(plan[i]), spare + page * NAMES);
    for (uint32_t i = 0; i < moved.erased; i++)
        chip_erase(erased[i]);
    return refusal;
}

/* Writes a batch: logical pages and what goes on them, in the order of arrival. */
static enum hedjosur_refusal gateway_write(const uint32_t *batch, uint8_t (*data)[PAGE],
                                           size_t count)
{
    uint32_t plan[BLOCK_PAGES];
    struct hedjosur_flushed flushed;
    enum hedjosur_refusal refusal =
        hedjosur_device_flush(&device, batch, count, plan, BLOCK_PAGES, &flushed);
    if (refusal == HEDJOSUR_NO_FREE_BLOCK) { /* One collection is enough, always. */
        refusal = gateway_collect();
        if (refusal == HEDJOSUR_ACCEPTED)
            refusal = hedjosur_device_flush(&device, batch, count, plan, BLOCK_PAGES, &flushed);
    }
    if (refusal != HEDJOSUR_ACCEPTED)
        return refusal;
    for (uint32_t i = 0, page = flushed.first_page; i < flushed.count; i++, page++)
        chip_program(page, data[plan[i]], spare + page * NAMES);
    return refusal;
}

/* Reads a logical page; data gets NULL where it was never written, or was discarded. */
static enum hedjosur_refusal gateway_read(uint32_t logical_page, const uint8_t **data)
{
    struct hedjosur_place place;
    enum hedjosur_refusal refusal = hedjosur_device_lookup(&device, logical_page, &place);
    if (refusal == HEDJOSUR_ACCEPTED)
        *data = place.found ? chip_read(place.page) : NULL;
    return refusal;
}

/* Discards a logical page: nothing is read there until it is written again. */
static enum hedjosur_refusal gateway_discard(uint32_t logical_page)
{
    return hedjosur_device_discard(&device, logical_page);
}

/* Says, for support staff, why a read finds what it finds: a line for each level. */
static enum hedjosur_refusal gateway_explain(uint32_t logical_page)
{
    static uint8_t why[HEDJOSUR_WHY_LEN];
    uint32_t entries = 0;
    enum hedjosur_refusal refusal =
        hedjosur_device_why(&device, logical_page, why, sizeof why, &entries);
    for (uint32_t i = 0; i < entries; i++) {
        struct hedjosur_reason reason = hedjosur_reason_at(why, i);
        printf("logical page %u: level %u: ", (unsigned)logical_page, (unsigned)reason.level);
        if (reason.has_record)
            printf("record %d..%d: ", reason.start, reason.start + reason.span);
        printf("%s", hedjosur_reason_text(reason.kind));
        if (reason.has_owner)
            printf(", but by the approximate record from %d", reason.owner);
        printf("\n");
    }
    return refusal;
}

/*
 * A NAND chip in memory: a block is erased whole, a page is programmed once after that,
 * the pages of a block ascending. It stops a driver that breaks these rules.
 */
static uint8_t chip_pages[BLOCKS * BLOCK_PAGES][PAGE];
static uint32_t chip_spare[BLOCKS * BLOCK_PAGES][NAMES];
/* For each block how many of its pages may yet be programmed. */
static uint32_t chip_left[BLOCKS];
static int chip_erases;

static void chip_erase(uint32_t block)
{
    memset(chip_pages[block * BLOCK_PAGES], 0xFF, BLOCK_PAGES * sizeof *chip_pages);
    memset(chip_spare[block * BLOCK_PAGES], 0xFF, BLOCK_PAGES * sizeof *chip_spare);
    chip_left[block] = BLOCK_PAGES;
    chip_erases++;
}

static void chip_program(uint32_t page, const uint8_t *data, const uint32_t *names)
{
    if (chip_left[page / BLOCK_PAGES] != BLOCK_PAGES - page % BLOCK_PAGES) {
        fprintf(stderr, "page %u: erased before, each page once, ascending\n", (unsigned)page);
        exit(1);
    }
    chip_left[page / BLOCK_PAGES]--;
    memcpy(chip_pages[page], data, PAGE);
    memcpy(chip_spare[page], names, sizeof *chip_spare);
}

static const uint8_t *chip_read(uint32_t page)
{
    return chip_pages[page];
}

/* What to do with a call that was refused: here it ends the program. */
static void accepted(enum hedjosur_refusal refusal)
{
    if (refusal != HEDJOSUR_ACCEPTED) {
        fprintf(stderr, "refused %d: %s\n", (int)refusal, hedjosur_refusal_text(refusal));
        exit(1);
    }
}

/*
 * A report: its flat, the hour since the start, a temperature in hundredths of a
 * degree, how far the valve is open.
 */
static void report(uint8_t *bytes, uint32_t flat, uint32_t hour)
{
    uint32_t temperature = 1700 + 37 * (flat + hour) % 600;
    memset(bytes, 0, REPORT);
    bytes[0] = (uint8_t)flat;
    for (int i = 0; i < 4; i++)
        bytes[2 + i] = (uint8_t)(hour >> 8 * i);
    bytes[6] = (uint8_t)temperature;
    bytes[7] = (uint8_t)(temperature >> 8);
    bytes[8] = (uint8_t)(flat * 31 + hour);
}

/*
 * Eight flats report each hour for 100 days, each time in another order. A flat has 16
 * logical pages, which it fills over and over. Then the people of one flat move out, and
 * the billing office drops its readings. In the end each logical page is read and
 * compared with what was last written to it; of that flat there is nothing to read.
 */
int main(void)
{
    enum { FLATS = 8, MOVED_OUT = 5, RING = LOGICAL_PAGES / FLATS };
    static uint8_t data[BLOCK_PAGES][PAGE], written[LOGICAL_PAGES][PAGE];
    uint32_t batch[BLOCK_PAGES];
    const uint8_t *found = NULL;
    size_t count = 0;

    accepted(gateway_open());
    for (uint32_t hour = REPORTS - 1; hour < 100 * 24; hour += REPORTS)
        for (uint32_t turn = 0; turn < FLATS; turn++) {
            /* This flat's seven reports since its last page fill another one. */
            uint32_t flat = (turn * 5 + hour) % FLATS;
            batch[count] = flat * RING + hour / REPORTS % RING;
            for (uint32_t i = 0; i < REPORTS; i++)
                report(data[count] + i * REPORT, flat, hour + 1 - REPORTS + i);
            memcpy(written[batch[count]], data[count], PAGE);
            if (++count == BLOCK_PAGES) {
                accepted(gateway_write(batch, data, count));
                count = 0;
            }
        }
    if (count > 0)
        accepted(gateway_write(batch, data, count));

    for (uint32_t i = 0; i < RING; i++)
        accepted(gateway_discard(MOVED_OUT * RING + i));

    for (uint32_t page = 0; page < LOGICAL_PAGES; page++) {
        const uint8_t *wanted = page / RING == MOVED_OUT ? NULL : written[page];
        accepted(gateway_read(page, &found));
        if (!found != !wanted || (wanted && memcmp(found, wanted, PAGE) != 0)) {
            fprintf(stderr, "logical page %u is another one\n", (unsigned)page);
            return 1;
        }
    }
    /* The chip's spare area is what the table's mirror of it says. */
    if (memcmp(chip_spare, spare, sizeof spare) != 0)
        return 1;
    /* What support staff reads of the second flat's second page. */
    accepted(gateway_explain(RING + 1));
    /* A call that can't be done is refused and changes nothing. */
    enum hedjosur_refusal refusal = gateway_read(LOGICAL_PAGES, &found);
    printf("logical page %d: refused %d: %s\n", LOGICAL_PAGES, (int)refusal,
           hedjosur_refusal_text(refusal));
    printf("all pages read back; collections erased %d blocks\n", chip_erases - BLOCKS);
    return 0;
}
