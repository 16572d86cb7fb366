/*
 * Hedjosur, a learned page table for raw flash and a plain one beside it, for C and
 * C++: the functions of the static library libexport.a, which `rt lib` builds in
 * crates/export.
 *
 * A driver owns the flash. It lends the table two buffers, the state and the spare
 * area, and is told where pages go and where they are:
 *
 *     static uint8_t state[HEDJOSUR_STATE_LEN(9, 64, 256, 1)];
 *     static uint32_t spare[HEDJOSUR_SPARE_LEN(9, 64, 256, 1)];
 *     static const struct hedjosur_device device = {
 *         state, sizeof state, spare, sizeof spare / sizeof *spare
 *     };
 *     struct hedjosur_place place;
 *     enum hedjosur_refusal refusal = hedjosur_device_lookup(&device, 82, &place);
 *     if (refusal != HEDJOSUR_ACCEPTED)
 *         puts(hedjosur_refusal_text(refusal));
 *     else if (place.found)
 *         read_page(place.page);
 *
 * examples/gateway.c is a driver in full. What each call answers and why it refuses
 * stands at the archive's own functions below; those on a struct hedjosur_device, at
 * the end, are the same calls with their answer taken apart.
 *
 * TWO ENGINES. hedjosur_plain_... are the calls of a plain table, one page number of 32
 * bits for each logical page; a struct hedjosur_plain_device has them taken apart, and
 * examples/recorder.c is a driver with it. It is lent the state alone, no spare area,
 * and has no compaction, agreement, listing or telling why. From a format, the same
 * calls give the same pages, plans, erased lists and refusals in both engines, and what
 * is said here of a call holds for both. Take the plain one where 4 bytes for each
 * logical page are to spare: it is lent less than the learned one, and no page's
 * out-of-band bytes are needed; but all of its bytes are in use, and flush and
 * collection go over all of them, with 145 KB of stack. Take the learned one where the
 * stack is small, or where the bytes in use have to be few, because the table is stored
 * or sent: neighbours that are written together share a record. A state of one engine is
 * refused 2 by the other, since it never has the other's length.
 *
 * WHATEVER IS LENT, a call answers or refuses; a refused call changes nothing. All
 * that is required: pointers are not null, also where a length is 0; a slice is
 * aligned as its element type is (the state not at all, 32-bit entries by 4 bytes);
 * the slices of one call don't overlap where one of them is written. Two calls on one
 * device may run at the same time if both only read (lookup, agree, list, why).
 *
 * THE STATE is the table itself: HEDJOSUR_STATE_LEN bytes, or for the plain engine
 * HEDJOSUR_PLAIN_STATE_LEN, exactly. docs/LAYOUT.md fixes them, so they may be stored
 * and lent again later, together with the spare area as it was then.
 *
 * THE SPARE AREA is what the chip's out-of-band bytes hold, as the driver mirrors
 * them in memory: 2g + 1 numbers of 32 bits for each page, page after page,
 * HEDJOSUR_SPARE_LEN entries, exactly. Entry j of page p names the logical page that
 * was written at page p - g + j by the same flush or collection; 0xFFFFFFFF names
 * nobody. The table itself writes the mirror, in format, flush and collection. The
 * driver programs the chip: for each page that a flush or a collection lists, the 2g +
 * 1 entries at spare + p * (2g + 1) go into the page's out-of-band bytes in the same
 * program operation as its data, since a page can be programmed only once. In memory
 * the numbers have the processor's byte order; on the chip the order is the driver's
 * choice, and low byte first, as in the state, is a good one. 2g + 1 numbers take 4 to
 * 124 bytes. The plain engine takes and keeps g, too, and doesn't use it.
 *
 * AFTER AN ACCEPTED FORMAT the driver erases every block: the table takes all of them
 * for erased.
 *
 * AFTER AN ACCEPTED FLUSH the driver programs pages first_page to first_page + count -
 * 1, ascending, page first_page + i with the data of arrival plan[i] of the batch. The
 * block was erased before: a flush always opens one, and adds to none.
 *
 * AFTER AN ACCEPTED DISCARD there is nothing to do: only the state changes. What the
 * page holds stays on the chip until a collection has its block erased. A write that
 * the driver keeps waiting is not dropped: its flush writes the page again.
 *
 * AFTER A FLUSH REFUSED HEDJOSUR_NO_FREE_BLOCK the driver makes a collection, which is
 * then accepted, and the same flush again, which is then accepted too: one collection
 * always helps. AFTER AN ACCEPTED COLLECTION it copies page plan[i] to page first_page
 * + i, data and the new spare entries, ascending, and then erases the blocks erased[0]
 * to erased[erased - 1]. Not before: they hold what is copied. An erase may wait until
 * a flush or a collection opens the block, as the table never looks at the chip.
 *
 * STACK. HEDJOSUR_STACK_... below are the bytes that each call needs at most beneath
 * its caller, held to by a test that measures on a painted stack; nothing recurses and
 * nothing is allocated. The plain engine's flush and collection keep a bit for each
 * page there. They use half a KiB of bits on a device of up to 4,096 pages, 4 KiB up
 * to 32,768, 32 KiB up to 262,144 and 128 KiB above, but take the room for the most
 * pages, and touch all of it, on every device. A program that is linked dynamically and
 * binds lazily spends some 3 KB more in the first call that reaches memset or memcpy
 * (not with -z now).
 *
 * LINKING. The archive needs memcpy, memmove and memset, and nothing else. It is code
 * for x86-64 Linux (System V calls, position independent), because that is what the
 * kit's compiler makes of the proved source today; for another processor the archive
 * would have to be made anew, and this header says so instead of the linker.
 *
 * WHAT IT DOESN'T DO. Power loss: after one, state and spare area have to be those
 * from before or after a call whose pages were all programmed; nothing is rebuilt from
 * the chip. Bad blocks: every block is used. Wear: the lowest free block is always
 * taken, so wear isn't levelled. Data, caches and time are the driver's.
 */
#ifndef HEDJOSUR_H
#define HEDJOSUR_H

#if !defined(__x86_64__) || !defined(__linux__)
#error "hedjosur: libexport.a is code for x86-64 Linux, there is no other archive today"
#endif

#include <stddef.h>
#include <stdint.h>

/* What an accessor below does with an answer that was refused. Define it first where
 * there is no assert.h. */
#ifndef HEDJOSUR_ASSERT
#include <assert.h>
#define HEDJOSUR_ASSERT(condition) assert(condition)
#endif

/* A refusal that is not looked at is a warning, where the compiler knows how. */
#if defined(__GNUC__) || defined(__clang__)
#define HEDJOSUR_LOOK_AT_IT __attribute__((warn_unused_result))
#else
#define HEDJOSUR_LOOK_AT_IT
#endif

#ifdef __cplusplus
extern "C" {
#endif

/* The version of this header, of the Rust crate and of the archive's interface. */
#define HEDJOSUR_VERSION "0.5.0"
#define HEDJOSUR_VERSION_MAJOR 0
#define HEDJOSUR_VERSION_MINOR 5
#define HEDJOSUR_VERSION_PATCH 0

/* The version that the caller was compiled with. */
static inline const char *hedjosur_version(void)
{
    return HEDJOSUR_VERSION;
}

/* Why a call is refused. Later versions may have more reasons. */
enum hedjosur_refusal {
    HEDJOSUR_ACCEPTED = 0,
    /* The state is too short for the device numbers, or one is outside its limits. */
    HEDJOSUR_BAD_NUMBERS = 1,
    /* A lent slice hasn't the length that the device numbers give. */
    HEDJOSUR_BAD_LENGTH = 2,
    /* The state, or the group looked at, is not sound. In the plain engine: an entry is
     * neither 0xFFFFFFFF nor a written page, for a lookup or a discard its own; for a
     * flush or a collection also: two entries name one page, or a count is above b. */
    HEDJOSUR_NOT_SOUND = 3,
    /* A logical page is N or more, or there is no such group. */
    HEDJOSUR_OUT_OF_RANGE = 4,
    /* The batch is empty or longer than a block. */
    HEDJOSUR_BAD_BATCH = 5,
    /* Too few blocks are free. */
    HEDJOSUR_NO_FREE_BLOCK = 6,
    /* The spare area doesn't name the logical page where the table expects it. Never in
     * the plain engine. */
    HEDJOSUR_NOT_NAMED = 7,
    /* A collection would free no block. */
    HEDJOSUR_NOTHING_TO_GAIN = 8
};

/* A refusal in words. */
static inline const char *hedjosur_refusal_text(enum hedjosur_refusal refusal)
{
    switch (refusal) {
    case HEDJOSUR_ACCEPTED:
        return "accepted";
    case HEDJOSUR_BAD_NUMBERS:
        return "the device numbers are missing or outside their limits";
    case HEDJOSUR_BAD_LENGTH:
        return "a lent slice has a length that doesn't fit the device numbers";
    case HEDJOSUR_NOT_SOUND:
        return "the table's bytes are damaged (not sound)";
    case HEDJOSUR_OUT_OF_RANGE:
        return "there is no such logical page or group";
    case HEDJOSUR_BAD_BATCH:
        return "the batch is empty or longer than a block";
    case HEDJOSUR_NO_FREE_BLOCK:
        return "too few blocks are free";
    case HEDJOSUR_NOT_NAMED:
        return "the spare area doesn't name the logical page";
    case HEDJOSUR_NOTHING_TO_GAIN:
        return "a collection would free no block";
    }
    return "a refusal of a newer archive";
}

/*
 * Lengths that are known when a device's numbers are, so that buffers can be static
 * arrays; an argument is evaluated more than once. Numbers outside their limits, which
 * stand at hedjosur_state_len, have no device and lengths 0. A plan has b entries, a
 * list of erased blocks m.
 */
#define HEDJOSUR_IS_DEVICE(m, b, n, g)                                                   \
    (3 <= (m) && (m) <= 4096 && 4 <= (b) && (b) <= 256 && 1 <= (n) &&                    \
     2 * (uint64_t)(n) <= ((uint64_t)(m) - 1) * (uint64_t)(b) && (uint64_t)(g) <= 15)
#define HEDJOSUR_GROUPS(n) (((size_t)(n) + 255) / 256)
#define HEDJOSUR_STATE_LEN(m, b, n, g)                                                   \
    (HEDJOSUR_IS_DEVICE(m, b, n, g)                                                      \
         ? 16 + 2 * (size_t)(m) + ((size_t)(n) + 7) / 8 + 5636 * HEDJOSUR_GROUPS(n)      \
         : (size_t)0)
#define HEDJOSUR_SPARE_LEN(m, b, n, g)                                                   \
    (HEDJOSUR_IS_DEVICE(m, b, n, g)                                                      \
         ? (size_t)(m) * (size_t)(b) * (2 * (size_t)(g) + 1) : (size_t)0)
#define HEDJOSUR_PLAIN_STATE_LEN(m, b, n, g)                                             \
    (HEDJOSUR_IS_DEVICE(m, b, n, g)                                                      \
         ? 16 + 2 * (size_t)(m) + 4 * (size_t)(n) : (size_t)0)
/* The bytes that a listing needs: 512 records of 10 bytes. */
#define HEDJOSUR_LISTING_LEN 5120
/* The bytes that telling why needs: 512 entries of 12 bytes. */
#define HEDJOSUR_WHY_LEN 6144

/* The stack that each call needs at most, in bytes; LEN: the lengths. */
#define HEDJOSUR_STACK_LEN 256
#define HEDJOSUR_STACK_FORMAT 256
#define HEDJOSUR_STACK_FLUSH 12288
#define HEDJOSUR_STACK_LOOKUP 1024
#define HEDJOSUR_STACK_DISCARD 1024
#define HEDJOSUR_STACK_COLLECT 20480
#define HEDJOSUR_STACK_COMPACT 2048
#define HEDJOSUR_STACK_AGREE 6144
#define HEDJOSUR_STACK_LIST 1024
#define HEDJOSUR_STACK_WHY 1024
#define HEDJOSUR_STACK_PLAIN_FORMAT 256
#define HEDJOSUR_STACK_PLAIN_LOOKUP 256
#define HEDJOSUR_STACK_PLAIN_DISCARD 256
/* A bit for each page is 131,072 of these two; a collection's tally and its blocks 12,288 more. */
#define HEDJOSUR_STACK_PLAIN_FLUSH 135168
#define HEDJOSUR_STACK_PLAIN_COLLECT 147456

/*
 * The archive's functions. A slice is passed as a pointer and a length in elements.
 * Every call but the lengths answers one number: hedjosur_refusal_of(answer) is
 * HEDJOSUR_ACCEPTED where it was accepted, and the accessors below take an accepted
 * answer apart.
 */

/*
 * The length of the state in bytes, and of the spare area in entries, for a device
 * of m blocks (3 to 4,096) of b pages (4 to 256), n logical pages (at least 1,
 * 2n at most (m - 1)b) and error bound g (0 to 15). 0 where a number is outside its
 * limits.
 */
uint64_t hedjosur_state_len(uint32_t m, uint32_t b, uint32_t n, uint32_t g);
uint64_t hedjosur_spare_len(uint32_t m, uint32_t b, uint32_t n, uint32_t g);

/*
 * Formats a device, whatever its buffers held. Refuses 1, then 2 where a buffer
 * hasn't exactly the length above.
 */
uint64_t hedjosur_format(uint32_t m, uint32_t b, uint32_t n, uint32_t g,
                         uint8_t *state, size_t state_len,
                         uint32_t *spare, size_t spare_len);

/*
 * Flushes a batch of 1 to b logical pages, in the order of their arrival. The plan
 * has b entries; for each page to write, from the first on, it gets the index in
 * the batch of what is stored there, and its later entries stay. Of a logical page
 * that arrived more than once, the last arrival counts. Answers hedjosur_first_page
 * and hedjosur_count. Refuses 1, 2, 3, 5, 4, and 6 where fewer than two blocks are
 * free.
 */
uint64_t hedjosur_flush(uint8_t *state, size_t state_len,
                        uint32_t *spare, size_t spare_len,
                        const uint32_t *batch, size_t batch_len,
                        uint32_t *plan, size_t plan_len);

/*
 * Looks a logical page up. Answers hedjosur_found; hedjosur_page and
 * hedjosur_predicted where it is found; hedjosur_levels and hedjosur_reads. A
 * discarded page isn't found, with 0 levels. Refuses 1, 2, 4, 3 for the page's
 * group, and 7.
 */
uint64_t hedjosur_lookup(const uint8_t *state, size_t state_len,
                         const uint32_t *spare, size_t spare_len,
                         uint32_t page);

/*
 * Discards a logical page, whether it was written or not: from now on a lookup
 * doesn't find it and a collection leaves its page behind, until a flush writes it
 * again. Answers nothing but the refusal: 1, 2, 4, and 3 for the page's group.
 */
uint64_t hedjosur_discard(uint8_t *state, size_t state_len,
                          const uint32_t *spare, size_t spare_len,
                          uint32_t page);

/*
 * Collects the used blocks with the fewest valid pages. The plan has b entries and
 * gets, for each page to write, the page to copy from; erased has m entries and
 * gets the blocks to erase after that; unused entries stay. Answers
 * hedjosur_first_page (0 where the count is 0), hedjosur_count and hedjosur_erased.
 * Refuses 1, 2, 3, 8 and 6.
 */
uint64_t hedjosur_collect(uint8_t *state, size_t state_len,
                          uint32_t *spare, size_t spare_len,
                          uint32_t *plan, size_t plan_len,
                          uint32_t *erased, size_t erased_len);

/*
 * Compacts a group. Answers hedjosur_records, those left. Refuses 1, 2, 4 where
 * there is no such group, and 3 for that group.
 */
uint64_t hedjosur_compact(uint8_t *state, size_t state_len, uint32_t group);

/*
 * Whether two devices have as many logical pages and every lookup gives the same in
 * both, hedjosur_yes: page, predicted page and count of levels; of a page that is not
 * written the count of levels. So two that find the same pages need not agree: one
 * that was compacted may look at fewer levels; one may predict another page and read
 * twice; a page that was never written has all levels of its group, a discarded one 0.
 * (Before version 0.4.0 a yes was about the pages alone.) A copy of state and spare
 * area, made together, agrees with the device it was made from. A yes is about now: the
 * same call on both may part them. m, b and g are not compared, nor what the pages
 * hold. Refuses 1, 2, 3 for the first, then the second, then 7.
 */
uint64_t hedjosur_agree(const uint8_t *state_a, size_t state_a_len,
                        const uint32_t *spare_a, size_t spare_a_len,
                        const uint8_t *state_b, size_t state_b_len,
                        const uint32_t *spare_b, size_t spare_b_len);

/*
 * Lists a group: out, of HEDJOSUR_LISTING_LEN bytes, gets 10 bytes for each record,
 * levels downward, each ascending: start (1), span (1), word (2), intercept (4,
 * signed), level (2), little-endian; the rest of it stays. Answers
 * hedjosur_records. Refuses as hedjosur_compact, 2 also for the length of out.
 */
uint64_t hedjosur_list(const uint8_t *state, size_t state_len, uint32_t group,
                       uint8_t *out, size_t out_len);

/*
 * Tells support staff why a lookup of a logical page ends where it does: out, of
 * HEDJOSUR_WHY_LEN bytes, gets 12 bytes for each level from the top, down to the record
 * that has the page or else to the last level; the rest of it stays. An entry is the
 * record of its level that covers the page's offset, page % 256, with start (1), span
 * (1), word (2) and intercept (4) as in a listing, or zeros where none does; the reason
 * (1), one of enum hedjosur_reason_kind; 1 where an owner is given (1), its start (1), 0
 * (1). hedjosur_reason_at reads it. Answers hedjosur_entries, as many as a lookup looks
 * at levels. The last is HEDJOSUR_MEMBER where the lookup finds the page, also where it
 * refuses 7, and nowhere else. A discarded page has no entries, nor has any page of a
 * group without records. No spare area is lent. Refuses 1, 2 also for the length of out,
 * 4, and 3 for the page's group; never 7.
 */
uint64_t hedjosur_why(const uint8_t *state, size_t state_len, uint32_t page,
                      uint8_t *out, size_t out_len);

/*
 * The plain engine's functions. Batch, plan and erased are as above, and so are the
 * answers, but for hedjosur_predicted, hedjosur_levels and hedjosur_reads, which a plain
 * lookup doesn't have: it takes one read where the page is found. In its state, little-
 * endian: m, b, n, g (4 bytes each), for each block its count of written pages (2), for
 * each logical page its entry (4), the page or 0xFFFFFFFF for 'not written'. A written
 * page is one whose place in its block is below the block's count.
 */

/* The length of the plain state in bytes, limits as above. 0 where a number is outside. */
uint64_t hedjosur_plain_state_len(uint32_t m, uint32_t b, uint32_t n, uint32_t g);

/* Formats a device, whatever its buffer held. Refuses 1 and 2 as hedjosur_format. */
uint64_t hedjosur_plain_format(uint32_t m, uint32_t b, uint32_t n, uint32_t g,
                               uint8_t *state, size_t state_len);

/*
 * Flushes a batch as hedjosur_flush. Refuses 1, 2, 3 where any entry is neither
 * 0xFFFFFFFF nor a written page, where two name one page or where a count is above b,
 * then 5, 4, and 6 where fewer than two blocks are free.
 */
uint64_t hedjosur_plain_flush(uint8_t *state, size_t state_len,
                              const uint32_t *batch, size_t batch_len,
                              uint32_t *plan, size_t plan_len);

/*
 * Looks a logical page up. Answers hedjosur_found, and hedjosur_page where it is found.
 * Refuses 1, 2, 4, and 3 where the page's own entry is neither 0xFFFFFFFF nor a written
 * page.
 */
uint64_t hedjosur_plain_lookup(const uint8_t *state, size_t state_len, uint32_t page);

/*
 * Discards a logical page as hedjosur_discard: its entry becomes 0xFFFFFFFF. Answers
 * nothing but the refusal, as hedjosur_plain_lookup.
 */
uint64_t hedjosur_plain_discard(uint8_t *state, size_t state_len, uint32_t page);

/*
 * Collects blocks as hedjosur_collect; a page is valid if an entry names it. Refuses 1,
 * 2, 3 as hedjosur_plain_flush, 8 and 6.
 */
uint64_t hedjosur_plain_collect(uint8_t *state, size_t state_len,
                                uint32_t *plan, size_t plan_len,
                                uint32_t *erased, size_t erased_len);

/* Any answer: the refusal, HEDJOSUR_ACCEPTED where the call was accepted. */
static inline enum hedjosur_refusal hedjosur_refusal_of(uint64_t answer)
{
    return (enum hedjosur_refusal)(answer >> 60);
}

/* The same by the name that it had first. */
#define hedjosur_refusal(answer) hedjosur_refusal_of(answer)

/* Some bits of an answer, which must be an accepted one. */
static inline uint32_t hedjosur_bits_of(uint64_t answer, int from, uint32_t mask)
{
    HEDJOSUR_ASSERT(hedjosur_refusal_of(answer) == HEDJOSUR_ACCEPTED);
    return (uint32_t)(answer >> from) & mask;
}

/* A flush or a collection: the first page to write. */
static inline uint32_t hedjosur_first_page(uint64_t answer)
{
    return hedjosur_bits_of(answer, 0, 0xFFFFF);
}

/* A flush or a collection: how many pages to write. */
static inline uint32_t hedjosur_count(uint64_t answer)
{
    return hedjosur_bits_of(answer, 20, 0xFFFFF);
}

/* A collection: how many blocks to erase. */
static inline uint32_t hedjosur_erased(uint64_t answer)
{
    return hedjosur_bits_of(answer, 40, 0xFFFFF);
}

/* A lookup: 1 where the logical page was written, 0 where it was not, or was discarded. */
static inline int hedjosur_found(uint64_t answer)
{
    return (int)hedjosur_bits_of(answer, 56, 1);
}

/* A lookup that found the logical page: the page. */
static inline uint32_t hedjosur_page(uint64_t answer)
{
    return hedjosur_bits_of(answer, 0, 0xFFFFF);
}

/* A lookup of the learned engine that found the logical page: the predicted page. */
static inline uint32_t hedjosur_predicted(uint64_t answer)
{
    return hedjosur_bits_of(answer, 20, 0xFFFFF);
}

/* A lookup of the learned engine: how many levels were looked at. */
static inline uint32_t hedjosur_levels(uint64_t answer)
{
    return hedjosur_bits_of(answer, 40, 0xFFFF);
}

/* A lookup of the learned engine: how many flash reads it takes to get the page. */
static inline int hedjosur_reads(uint64_t answer)
{
    return hedjosur_found(answer) + (hedjosur_page(answer) != hedjosur_predicted(answer));
}

/* A compaction or a listing: how many records the group has. */
static inline uint32_t hedjosur_records(uint64_t answer)
{
    return hedjosur_bits_of(answer, 0, 0xFFFFFFFF);
}

/* An agreement: 1 yes, 0 no. */
static inline int hedjosur_yes(uint64_t answer)
{
    return (int)hedjosur_bits_of(answer, 0, 1);
}

/* Telling why: how many entries out has. */
static inline uint32_t hedjosur_entries(uint64_t answer)
{
    return hedjosur_bits_of(answer, 0, 0xFFFFFFFF);
}

/* Why the record of a level has an offset as a member, or hasn't. */
enum hedjosur_reason_kind {
    /* No record of the level covers the offset. */
    HEDJOSUR_NONE_COVERS = 0,
    /* An accurate record covers it, and its stride steps over it. */
    HEDJOSUR_OFF_THE_STRIDE = 1,
    /* An approximate record covers it and doesn't own it. */
    HEDJOSUR_NOT_OWNED = 2,
    /* The record has it: the lookup ends here. */
    HEDJOSUR_MEMBER = 3
};

/* A reason in words. */
static inline const char *hedjosur_reason_text(enum hedjosur_reason_kind kind)
{
    switch (kind) {
    case HEDJOSUR_NONE_COVERS:
        return "no record covers it";
    case HEDJOSUR_OFF_THE_STRIDE:
        return "off the stride";
    case HEDJOSUR_NOT_OWNED:
        return "not owned by it";
    case HEDJOSUR_MEMBER:
        return "member";
    }
    return "a reason of a newer archive";
}

/*
 * What a lookup meets at one level. Where has_record is 1, start to start + span are the
 * offsets that the record covers, in their group as page % 256 is; its word is 0 for a
 * single, 2d for an accurate record with stride d, odd for an approximate one. Where
 * has_owner is 1, with HEDJOSUR_NOT_OWNED alone, owner is the start of the approximate
 * record that owns the offset; no two of a group have the same start. What there isn't
 * is 0.
 */
struct hedjosur_reason {
    uint32_t level;
    enum hedjosur_reason_kind kind;
    int has_record;
    uint8_t start;
    uint8_t span;
    uint16_t word;
    int32_t intercept;
    int has_owner;
    uint8_t owner;
};

/* Entry i of what telling why wrote into out, i below hedjosur_entries: that of level i. */
static inline struct hedjosur_reason hedjosur_reason_at(const uint8_t *out, uint32_t i)
{
    const uint8_t *entry = out + 12 * (size_t)i;
    uint32_t intercept = (uint32_t)entry[4] | (uint32_t)entry[5] << 8 |
                         (uint32_t)entry[6] << 16 | (uint32_t)entry[7] << 24;
    struct hedjosur_reason reason;
    reason.level = i;
    reason.kind = (enum hedjosur_reason_kind)entry[8];
    reason.has_record = reason.kind != HEDJOSUR_NONE_COVERS;
    reason.start = entry[0];
    reason.span = entry[1];
    reason.word = (uint16_t)(entry[2] | entry[3] << 8);
    reason.intercept = (int32_t)((int64_t)(intercept ^ 0x80000000) - 0x80000000);
    reason.has_owner = entry[9];
    reason.owner = entry[10];
    return reason;
}

/*
 * The same calls on a device: its two buffers, with their lengths in elements, or with
 * the plain engine its one. Each answers the refusal, and fills what its last pointer is
 * to where it was accepted.
 */
struct hedjosur_device {
    uint8_t *state;
    size_t state_len;
    uint32_t *spare;
    size_t spare_len;
};

struct hedjosur_plain_device {
    uint8_t *state;
    size_t state_len;
};

/* Where a flush puts a batch: pages first_page to first_page + count - 1. */
struct hedjosur_flushed {
    uint32_t first_page;
    uint32_t count;
};

/*
 * Where a logical page is: found is 1 where it was written, 0 where it was not, or was
 * discarded; then the pages are 0.
 */
struct hedjosur_place {
    uint32_t page;
    uint32_t predicted;
    uint32_t levels;
    int found;
};

/* The same in the plain engine. */
struct hedjosur_plain_place {
    uint32_t page;
    int found;
};

/* What a collection moves, and how many blocks are to be erased after that. */
struct hedjosur_collected {
    uint32_t first_page;
    uint32_t count;
    uint32_t erased;
};

/* A flush's answer taken apart, either engine's. */
HEDJOSUR_LOOK_AT_IT
static inline enum hedjosur_refusal hedjosur_flushed_of(
    uint64_t answer, struct hedjosur_flushed *flushed)
{
    if (hedjosur_refusal_of(answer) == HEDJOSUR_ACCEPTED) {
        flushed->first_page = hedjosur_first_page(answer);
        flushed->count = hedjosur_count(answer);
    }
    return hedjosur_refusal_of(answer);
}

/* A collection's. */
HEDJOSUR_LOOK_AT_IT
static inline enum hedjosur_refusal hedjosur_collected_of(
    uint64_t answer, struct hedjosur_collected *collected)
{
    if (hedjosur_refusal_of(answer) == HEDJOSUR_ACCEPTED) {
        collected->first_page = hedjosur_first_page(answer);
        collected->count = hedjosur_count(answer);
        collected->erased = hedjosur_erased(answer);
    }
    return hedjosur_refusal_of(answer);
}

/* hedjosur_format. The driver then erases all blocks. */
HEDJOSUR_LOOK_AT_IT
static inline enum hedjosur_refusal hedjosur_device_format(
    const struct hedjosur_device *device, uint32_t m, uint32_t b, uint32_t n, uint32_t g)
{
    return hedjosur_refusal_of(hedjosur_format(m, b, n, g, device->state, device->state_len,
                                               device->spare, device->spare_len));
}

/* hedjosur_flush. The driver then programs the pages by the plan. */
HEDJOSUR_LOOK_AT_IT
static inline enum hedjosur_refusal hedjosur_device_flush(
    const struct hedjosur_device *device, const uint32_t *batch, size_t batch_len,
    uint32_t *plan, size_t plan_len, struct hedjosur_flushed *flushed)
{
    uint64_t answer = hedjosur_flush(device->state, device->state_len, device->spare,
                                     device->spare_len, batch, batch_len, plan, plan_len);
    return hedjosur_flushed_of(answer, flushed);
}

/* hedjosur_lookup. */
HEDJOSUR_LOOK_AT_IT
static inline enum hedjosur_refusal hedjosur_device_lookup(
    const struct hedjosur_device *device, uint32_t page, struct hedjosur_place *place)
{
    uint64_t answer = hedjosur_lookup(device->state, device->state_len, device->spare,
                                      device->spare_len, page);
    if (hedjosur_refusal_of(answer) == HEDJOSUR_ACCEPTED) {
        place->page = hedjosur_page(answer);
        place->predicted = hedjosur_predicted(answer);
        place->levels = hedjosur_levels(answer);
        place->found = hedjosur_found(answer);
    }
    return hedjosur_refusal_of(answer);
}

/* hedjosur_discard. */
HEDJOSUR_LOOK_AT_IT
static inline enum hedjosur_refusal hedjosur_device_discard(
    const struct hedjosur_device *device, uint32_t page)
{
    return hedjosur_refusal_of(hedjosur_discard(device->state, device->state_len,
                                                device->spare, device->spare_len, page));
}

/* hedjosur_collect. The driver then copies pages by the plan and erases blocks. */
HEDJOSUR_LOOK_AT_IT
static inline enum hedjosur_refusal hedjosur_device_collect(
    const struct hedjosur_device *device, uint32_t *plan, size_t plan_len,
    uint32_t *erased, size_t erased_len, struct hedjosur_collected *collected)
{
    uint64_t answer = hedjosur_collect(device->state, device->state_len, device->spare,
                                       device->spare_len, plan, plan_len, erased, erased_len);
    return hedjosur_collected_of(answer, collected);
}

/* hedjosur_compact, of one of HEDJOSUR_GROUPS(n) groups; records gets those left. */
HEDJOSUR_LOOK_AT_IT
static inline enum hedjosur_refusal hedjosur_device_compact(
    const struct hedjosur_device *device, uint32_t group, uint32_t *records)
{
    uint64_t answer = hedjosur_compact(device->state, device->state_len, group);
    if (hedjosur_refusal_of(answer) == HEDJOSUR_ACCEPTED)
        *records = hedjosur_records(answer);
    return hedjosur_refusal_of(answer);
}

/* hedjosur_agree: yes gets 1 or 0. */
HEDJOSUR_LOOK_AT_IT
static inline enum hedjosur_refusal hedjosur_device_agree(
    const struct hedjosur_device *a, const struct hedjosur_device *b, int *yes)
{
    uint64_t answer = hedjosur_agree(a->state, a->state_len, a->spare, a->spare_len,
                                     b->state, b->state_len, b->spare, b->spare_len);
    if (hedjosur_refusal_of(answer) == HEDJOSUR_ACCEPTED)
        *yes = hedjosur_yes(answer);
    return hedjosur_refusal_of(answer);
}

/* hedjosur_list; records gets how many out has. */
HEDJOSUR_LOOK_AT_IT
static inline enum hedjosur_refusal hedjosur_device_list(
    const struct hedjosur_device *device, uint32_t group,
    uint8_t *out, size_t out_len, uint32_t *records)
{
    uint64_t answer = hedjosur_list(device->state, device->state_len, group, out, out_len);
    if (hedjosur_refusal_of(answer) == HEDJOSUR_ACCEPTED)
        *records = hedjosur_records(answer);
    return hedjosur_refusal_of(answer);
}

/* hedjosur_why; entries gets how many out has. */
HEDJOSUR_LOOK_AT_IT
static inline enum hedjosur_refusal hedjosur_device_why(
    const struct hedjosur_device *device, uint32_t page,
    uint8_t *out, size_t out_len, uint32_t *entries)
{
    uint64_t answer = hedjosur_why(device->state, device->state_len, page, out, out_len);
    if (hedjosur_refusal_of(answer) == HEDJOSUR_ACCEPTED)
        *entries = hedjosur_entries(answer);
    return hedjosur_refusal_of(answer);
}

/* hedjosur_plain_format. The driver then erases all blocks. */
HEDJOSUR_LOOK_AT_IT
static inline enum hedjosur_refusal hedjosur_plain_device_format(
    const struct hedjosur_plain_device *device,
    uint32_t m, uint32_t b, uint32_t n, uint32_t g)
{
    return hedjosur_refusal_of(
        hedjosur_plain_format(m, b, n, g, device->state, device->state_len));
}

/* hedjosur_plain_flush. The driver then programs the pages by the plan. */
HEDJOSUR_LOOK_AT_IT
static inline enum hedjosur_refusal hedjosur_plain_device_flush(
    const struct hedjosur_plain_device *device, const uint32_t *batch, size_t batch_len,
    uint32_t *plan, size_t plan_len, struct hedjosur_flushed *flushed)
{
    uint64_t answer = hedjosur_plain_flush(device->state, device->state_len,
                                           batch, batch_len, plan, plan_len);
    return hedjosur_flushed_of(answer, flushed);
}

/* hedjosur_plain_lookup. */
HEDJOSUR_LOOK_AT_IT
static inline enum hedjosur_refusal hedjosur_plain_device_lookup(
    const struct hedjosur_plain_device *device, uint32_t page,
    struct hedjosur_plain_place *place)
{
    uint64_t answer = hedjosur_plain_lookup(device->state, device->state_len, page);
    if (hedjosur_refusal_of(answer) == HEDJOSUR_ACCEPTED) {
        place->page = hedjosur_page(answer);
        place->found = hedjosur_found(answer);
    }
    return hedjosur_refusal_of(answer);
}

/* hedjosur_plain_discard. */
HEDJOSUR_LOOK_AT_IT
static inline enum hedjosur_refusal hedjosur_plain_device_discard(
    const struct hedjosur_plain_device *device, uint32_t page)
{
    return hedjosur_refusal_of(
        hedjosur_plain_discard(device->state, device->state_len, page));
}

/* hedjosur_plain_collect. The driver then copies pages by the plan and erases blocks. */
HEDJOSUR_LOOK_AT_IT
static inline enum hedjosur_refusal hedjosur_plain_device_collect(
    const struct hedjosur_plain_device *device, uint32_t *plan, size_t plan_len,
    uint32_t *erased, size_t erased_len, struct hedjosur_collected *collected)
{
    uint64_t answer = hedjosur_plain_collect(device->state, device->state_len,
                                             plan, plan_len, erased, erased_len);
    return hedjosur_collected_of(answer, collected);
}

#ifdef __cplusplus
}
#endif

#endif
