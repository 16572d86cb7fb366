/*
 * A driver with the plain engine: the recorder in the cellar, which keeps the last twelve
 * months of each flat of a street on raw flash, a page for a flat's month. The chip is
 * one in memory; what a driver of your own needs are the recorder_ functions.
 *
 *     cc -I rust/hedjosur/include rust/hedjosur/examples/recorder.c \
 *        crates/export/out/libexport.a -o recorder && ./recorder
 */
#include <assert.h>
#include <stdio.h>
#include <stdlib.h>
#include <string.h>

#include "hedjosur.h"

enum { FLATS = 128, MOVED_OUT = 77, MONTHS = 12 };
enum { BLOCKS = 52, BLOCK_PAGES = 64, LOGICAL_PAGES = FLATS * MONTHS };
static uint8_t state[HEDJOSUR_PLAIN_STATE_LEN(BLOCKS, BLOCK_PAGES, LOGICAL_PAGES, 0)];
static const struct hedjosur_plain_device table = {state, sizeof state};

/* The chip. A page holds a single number here, the heat that a flat took in a month. */
static uint32_t chip[BLOCKS * BLOCK_PAGES];
static int chip_erases;

static void chip_erase(uint32_t block)
{
    memset(chip + block * BLOCK_PAGES, 0xFF, BLOCK_PAGES * sizeof *chip);
    chip_erases++;
}

static void chip_program(uint32_t page, uint32_t data)
{
    assert(chip[page] == 0xFFFFFFFF); /* Each page once after an erase. */
    chip[page] = data;
}

/* What to do with a call that was refused: here it ends the program. */
static void accepted(enum hedjosur_refusal refusal)
{
    if (refusal != HEDJOSUR_ACCEPTED) {
        fprintf(stderr, "refused %d: %s\n", (int)refusal, hedjosur_refusal_text(refusal));
        exit(1);
    }
}

/* Frees blocks: copies pages by the plan, ascending, then erases what is listed. */
static void recorder_collect(void)
{
    uint32_t plan[BLOCK_PAGES], erased[BLOCKS];
    struct hedjosur_collected moved = {0, 0, 0};
    accepted(hedjosur_plain_device_collect(&table, plan, BLOCK_PAGES, erased, BLOCKS, &moved));
    for (uint32_t i = 0; i < moved.count; i++)
        chip_program(moved.first_page + i, chip[plan[i]]);
    for (uint32_t i = 0; i < moved.erased; i++)
        chip_erase(erased[i]);
}

/* Writes a batch: logical pages and what goes on them, in the order of arrival. */
static void recorder_write(const uint32_t *batch, const uint32_t *data, size_t count)
{
    uint32_t plan[BLOCK_PAGES];
    struct hedjosur_flushed flushed = {0, 0};
    enum hedjosur_refusal refusal =
        hedjosur_plain_device_flush(&table, batch, count, plan, BLOCK_PAGES, &flushed);
    if (refusal == HEDJOSUR_NO_FREE_BLOCK) { /* One collection is enough, always. */
        recorder_collect();
        refusal = hedjosur_plain_device_flush(&table, batch, count, plan, BLOCK_PAGES, &flushed);
    }
    accepted(refusal);
    for (uint32_t i = 0; i < flushed.count; i++)
        chip_program(flushed.first_page + i, data[plan[i]]);
}

/* Reads a logical page: 1, and what it holds, or 0 where it is not written. */
static int recorder_read(uint32_t logical_page, uint32_t *data)
{
    struct hedjosur_plain_place place = {0, 0};
    accepted(hedjosur_plain_device_lookup(&table, logical_page, &place));
    *data = chip[place.page];
    return place.found;
}

static uint32_t reported(uint32_t flat, uint32_t month)
{
    return 1000 * month + flat;
}

/*
 * Ten years of a street, and a line on each. Each month all flats report, in another
 * order. In the sixth year the people of one flat move out, and the billing office drops
 * its readings. In the end each page is read and compared with what was reported.
 */
int main(void)
{
    uint32_t batch[BLOCK_PAGES], data[BLOCK_PAGES];

    accepted(hedjosur_plain_device_format(&table, BLOCKS, BLOCK_PAGES, LOGICAL_PAGES, 0));
    for (uint32_t block = 0; block < BLOCKS; block++)
        chip_erase(block);
    for (uint32_t month = 0; month < 10 * MONTHS; month++) {
        size_t count = 0;
        for (uint32_t i = 0; month == 5 * MONTHS && i < MONTHS; i++)
            accepted(hedjosur_plain_device_discard(&table, MOVED_OUT * MONTHS + i));
        for (uint32_t turn = 0; turn < FLATS; turn++) {
            uint32_t flat = turn * (2 * month + 1) % FLATS;
            if (flat != MOVED_OUT || month < 5 * MONTHS) {
                batch[count] = flat * MONTHS + month % MONTHS;
                data[count++] = reported(flat, month);
            }
            if (count == BLOCK_PAGES || turn == FLATS - 1) {
                recorder_write(batch, data, count);
                count = 0;
            }
        }
        if (month % MONTHS == MONTHS - 1)
            printf("year %u: collections have erased %d blocks\n",
                   (unsigned)(month / MONTHS + 1), chip_erases - BLOCKS);
    }
    for (uint32_t page = 0; page < LOGICAL_PAGES; page++) {
        uint32_t flat = page / MONTHS, month = 9 * MONTHS + page % MONTHS;
        int found = recorder_read(page, data);
        if (found != (flat != MOVED_OUT) || (found && data[0] != reported(flat, month))) {
            fprintf(stderr, "logical page %u is another one\n", (unsigned)page);
            return 1;
        }
    }
    printf("all pages read back, and nothing of flat %d\n", MOVED_OUT);
    return 0;
}
