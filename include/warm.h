/*
 * warm.h: plans which units of a bench are on in each step of a test campaign.
 *
 * A bench has up to 64 units, numbered from 0, in up to four chambers. A set of units is a 64-bit number in which unit
 * u has weight 2^u. A campaign is a list of steps in a fixed order. A step says which units must be on, which may be
 * on, and how many of each chamber are on at least and at most. Switching a unit on costs a warm-up.
 *
 * A campaign sheet is a block of bytes: a header of 24 bytes and r records, of 24 bytes each in edition 1 and of 32 in
 * edition 2. Numbers are little-endian.
 *
 *   header   0 to 3 the letters WARM, 4 the edition (1 or 2), 5 the number of units d (1 to 64), 6 to 7 the number of
 *            records r (0 to 256), 8 to 9 the number of the first record (0 if there is no step), 10 to 11 the bound on
 *            warm-ups, 12 to 15 in edition 1 zero, in edition 2 the numbers of units of chambers 1 to 4, which add up
 *            to d, 16 to 23 the start set: the units that are on before the first step, all below d
 *   record   0 to 7 the lower set: the units that must be on, 8 to 15 the upper set: the units that may be on, all
 *            below d, and then
 *     in edition 1   16 the least and 17 the greatest number of units on, 18 to 19 the number of the next record (0 at
 *                    the end), 20 to 23 a job tag, any value
 *     in edition 2   16 to 19 the least and 20 to 23 the greatest numbers of units on in chambers 1 to 4, 24 to 25 the
 *                    number of the next record (0 at the end), 26 to 27 zero, 28 to 31 a job tag, any value
 *
 * Units are dealt out to the chambers in order, and a chamber may be empty; in edition 1 all are in chamber 1. Records
 * have the numbers 1 to r. The steps are the first record, its next one, and so on; a record that is not reached may
 * hold anything. docs/FORMAT.md says all this at more length. warm_write makes a sheet of edition 1 from steps;
 * warm_to_edition_1 and warm_to_edition_2 convert a sheet of the other edition. No call needs a sheet that was checked
 * before: any bytes of any length get a full reply or one refusal.
 *
 * A set is feasible in a step if it includes the lower set, lies within the upper set, and has in each chamber a
 * number of units from that chamber's least to its greatest number. Where there is such a set, its least size is the
 * sum over the chambers of the greater of the least number and the number of the chamber's units in the lower set, its
 * greatest size is the sum of the lesser of the greatest number and the number of the chamber's units in the upper
 * set, and every size between occurs too. The program list_sizes prints the two, how few and how many units may be on,
 * for each step of a sheet.
 *
 * A plan has one word for each step: the set of units that are on. It is feasible if the set of every step is. Its
 * warm-ups in a step are the units that are on there and off in the step before; for the first step the start set is
 * the step before. Its total is the sum over all steps. The fewest warm-ups are the least total of any feasible plan.
 * Some papers leave out the loading of the first step: with all d units in the start set the fewest warm-ups are what
 * they count, the least that any feasible plan has from its second step on, or 0 if there is no step.
 *
 * A reply whose field `refusal` is 0 is a full reply. Otherwise `refusal` is a number of this table, `place` says where
 * or how many, every other field is 0, and every buffer that was lent is exactly as it came.
 *
 *   refusal  cause                                                                      place
 *   1        the sheet is shorter than 24 or longer than 8,216 bytes                    0
 *   2        the letters are not WARM                                                   byte 0
 *   2        the edition is not 1 or 2                                                  byte 4
 *   3        the number of units is not 1 to 64                                         byte 5
 *   3        there are more than 256 records                                            byte 6
 *   3        bytes 12 to 15 are not zero in edition 1                                   byte 12
 *   13       the chamber sizes in edition 2 do not add up to the number of units        byte 12
 *   3        the start set has a unit that the sheet does not have                      byte 16
 *   3        the length is not that of the header and the records                       byte 24
 *   4        the number of the first or the next record is above the number of records  record that holds it, or 0
 *   5        the next record is already on the chain                                    record that holds its number
 *   14       bytes 26 to 27 of the step's record are not zero in edition 2              step, from 1
 *   6        the upper set has a unit that the sheet does not have                      step, from 1
 *   7        no set of units is feasible in the step                                    step, from 1
 *   15       a unit is outside chamber 1                                                byte 12
 *   8        an output has fewer places than the reply fills                            count of those places
 *   9        the bound is below the fewest warm-ups                                     count of those warm-ups
 *   10       the plan has more or fewer words than there are steps                      count of the steps
 *   11       the number of units, the start set or the number of steps is outside the limits of a sheet  0
 *   12       the output is shorter than the sheet                                       count of the bytes of the sheet
 *
 * The first cause in this order is given: of 4 and 5 the one at the earlier link, and of 14, 6 and 7 the one in the
 * earlier step. The place of refusal 4 is 0 if the header holds the number. The places that refusal 8 counts are one
 * for each step, or, of warm_to_edition_1 and warm_to_edition_2, one for each byte of the converted sheet. Below, each
 * entry says which refusals it gives.
 *
 * To learn the number of steps n, call warm_steps with no list (NULL and 0): it gives refusal 8 with n as its place, or
 * a full reply if n is 0, or one of 1 to 7, 13 and 14 if the sheet is refused. To learn the length of a sheet before it
 * is written, call warm_write with no output (NULL and 0): it gives refusal 12 with the length as its place, or 11. To
 * learn that of a converted sheet, call warm_to_edition_1 or warm_to_edition_2 with no output: it gives refusal 8 with
 * the length as its place, or the one that refuses the sheet.
 *
 * No call allocates, blocks, prints or keeps state: threads may call at will. Buffers are aligned for their type and do
 * not overlap. A pointer may be NULL where its length is 0. The archive is for x86-64 and the calling convention of
 * Linux (System V), built for any such processor, and needs memcpy and memset of its host. It has no unwind tables: a
 * debugger, a profiler or an exception that a signal handler throws finds no way out of a call.
 *
 * Stack: the WARM_STACK_ numbers below are the most that a call takes, with all that it calls in the archive. They
 * leave out what memcpy and memset take. In a program that binds functions at their first call (-z lazy, the default of
 * many compilers), they also leave out the dynamic linker, which runs on the caller's stack where a call is the first
 * to need memcpy or memset: with glibc 2.36, warm_chart then went more than 33,000 bytes deep. Link with -z now
 * (cc -Wl,-z,now) or statically to be sure. Frames above a page are probed page by page, from the top, so that a guard
 * page below the stack is met and not jumped over.
 */
#ifndef WARM_H
#define WARM_H

#include <stddef.h>
#include <stdint.h>

/* The compiler warns where a reply is not looked at, and in C++ no entry throws. */
#if defined(__GNUC__)
#define WARM_CHECKED __attribute__((warn_unused_result))
#else
#define WARM_CHECKED
#endif
#if defined(__cplusplus) && __cplusplus >= 201103L
#define WARM_NOEXCEPT noexcept
#else
#define WARM_NOEXCEPT
#endif

#ifdef __cplusplus
extern "C" {
#endif

/* Changes when a struct or an entry below changes. Such an entry then has another name too, so that a program compiled
   for the old struct does not link. What is only added does not count. In version 2 a place of the steps list has the
   numbers of four chambers and 32 bytes, and the reply of warm_steps has the chambers; its name in the archive is
   warm_steps_2, so that an object compiled for places of 24 bytes fails to link instead of having its list overrun. */
#define WARM_VERSION 2
#define warm_steps warm_steps_2

/* The most units, chambers, steps and bytes that a sheet can have. */
#define WARM_UNITS 64
#define WARM_CHAMBERS 4
#define WARM_STEPS 256
#define WARM_BYTES 8216

/* The most bytes of stack that a call of each entry takes, its return address among them; what they leave out is said
   above, under Stack. */
#define WARM_STACK_STEPS 512
#define WARM_STACK_PLAN 13824
#define WARM_STACK_CHART 32768
#define WARM_STACK_VERDICT 512
#define WARM_STACK_WRITE 128
#define WARM_STACK_TO_EDITION_1 512
#define WARM_STACK_TO_EDITION_2 512

/* The numbers of the table above, by name. Later versions add to them. */
typedef enum {
    WARM_REFUSAL_LENGTH = 1,
    WARM_REFUSAL_FORM = 2,
    WARM_REFUSAL_HEADER = 3,
    WARM_REFUSAL_RECORD_NUMBER = 4,
    WARM_REFUSAL_LOOP = 5,
    WARM_REFUSAL_UPPER_SET = 6,
    WARM_REFUSAL_NO_SET = 7,
    WARM_REFUSAL_SHORT_OUTPUT = 8,
    WARM_REFUSAL_BOUND = 9,
    WARM_REFUSAL_PLAN_LENGTH = 10,
    WARM_REFUSAL_LIMITS = 11,
    WARM_REFUSAL_NO_ROOM = 12,
    WARM_REFUSAL_CHAMBER_SIZES = 13,
    WARM_REFUSAL_RESERVED_BYTES = 14,
    WARM_REFUSAL_OTHER_CHAMBERS = 15
} warm_refusal;

/* What the place of a refusal is. Later versions may add to these. */
typedef enum {
    WARM_PLACE_UNKNOWN, /* of a number that is not in the table */
    WARM_PLACE_WHOLE,   /* no place in particular: the number is 0 */
    WARM_PLACE_BYTE,    /* a byte of the sheet, from 0 */
    WARM_PLACE_RECORD,  /* a record, from 1, or 0 for the header */
    WARM_PLACE_STEP,    /* a step, from 1 */
    WARM_PLACE_COUNT    /* a count, of what the table says */
} warm_place;

/* One step of a sheet that is read: unit u has weight 2^u in a set, and chamber c has place c - 1 in an array. A step
   of edition 1 has its numbers in the places of chamber 1, and zeros in the others. */
typedef struct {
    uint64_t lower;                  /* the units that must be on */
    uint64_t upper;                  /* the units that may be on */
    uint8_t least[WARM_CHAMBERS];    /* the least number of units on, for each chamber */
    uint8_t greatest[WARM_CHAMBERS]; /* the greatest number of units on, for each chamber */
    uint32_t tag;                    /* the job tag, any value */
    uint32_t reserved;               /* 0 */
} warm_chamber_step;

typedef struct {
    uint32_t refusal;
    uint32_t place;
    uint32_t units;
    uint32_t steps;
    uint32_t bound;                   /* the bound on warm-ups */
    uint32_t reserved;                /* 0 */
    uint64_t start;                   /* the units that are on before the first step */
    uint32_t chambers[WARM_CHAMBERS]; /* how many units each chamber has: in edition 1, all and three times 0 */
} warm_steps_reply;

/*
 * The steps of a sheet, into the first places of a list. Places after them are left as they are. A list of WARM_STEPS
 * places is always enough.
 * Takes two walks along the chain of records, and one more to fill the list. Refusals: 1 to 8, 13 and 14.
 */
WARM_CHECKED warm_steps_reply warm_steps(
    const uint8_t *sheet, size_t sheet_len, warm_chamber_step *steps, size_t steps_len) WARM_NOEXCEPT;

typedef struct {
    uint32_t refusal;
    uint32_t place;
    uint32_t total;    /* the warm-ups of the plan that is handed out, charted or judged */
    uint32_t accepted; /* the verdict: 1 for yes, 0 for no; 0 from the other entries */
} warm_reply;

/*
 * A plan with the fewest warm-ups, into the first places of an output, one word for each step. Places after them are
 * left as they are, and so is the whole output on a refusal. An output of WARM_STEPS places is always enough. Where
 * several plans have as few warm-ups, FindSupport's is handed out (docs/FORMAT.md), always the same: where nothing else
 * tells two units of a chamber apart, it prefers the higher number.
 * Takes two walks along the chain, and for each chamber that has a unit one more, one pass over the steps, and for each
 * step at most 31 looks at single steps and one at each block of sixteen steps from it on: in all at most
 * 32 * n + n * n / 32 looks a chamber, for n steps.
 * Refusals: 1 to 9, 13 and 14.
 */
WARM_CHECKED warm_reply warm_plan(
    const uint8_t *sheet, size_t sheet_len, uint64_t *plan, size_t plan_len) WARM_NOEXCEPT;

/*
 * For each step the units that can be on and those that can be off, over all feasible plans whose total is at most the
 * bound, into the first places of two outputs, one word for each step. A unit can be in both words; one that the sheet
 * does not have is in neither. Places after them are left as they are, and so are both outputs on a refusal. Outputs
 * of WARM_STEPS places are always enough. The total is that of warm_plan.
 * With two warm-ups or more to spare (a bound of at least the total plus 2), the words show what each step alone
 * allows: a unit can be on there exactly if some feasible set of that step has it, and off exactly if some feasible
 * set of that step lacks it. The reason is that a detour in one step costs at most two warm-ups. To see what all plans
 * with the fewest warm-ups have in common, set the bound (bytes 10 to 11 of the sheet) to the fewest, which is the
 * total of warm_plan, or the place of refusal 9.
 * Takes the time of a plan, and beyond that a time linear in n * d, for n steps and d units: in all less than a
 * millisecond for the largest sheets.
 * Refusals: 1 to 9, 13 and 14.
 */
WARM_CHECKED warm_reply warm_chart(
    const uint8_t *sheet, size_t sheet_len, uint64_t *on, size_t on_len, uint64_t *off, size_t off_len) WARM_NOEXCEPT;

/*
 * Whether a plan that was made elsewhere is feasible and has a total of at most the bound, and that total, feasible or
 * not. In the total, units that the sheet does not have count like any other. Writes to no lent memory.
 * Takes three walks along the chain, and one through the plan. Refusals: 1 to 7, 10, 13 and 14.
 */
WARM_CHECKED warm_reply warm_verdict(
    const uint8_t *sheet, size_t sheet_len, const uint64_t *plan, size_t plan_len) WARM_NOEXCEPT;

/* One step of a sheet that is written, which has one chamber. The padding plays no part, and nothing is said of what it
   holds. */
typedef struct {
    uint64_t lower;   /* the units that must be on */
    uint64_t upper;   /* the units that may be on */
    uint8_t least;    /* the least number of units on */
    uint8_t greatest; /* the greatest number of units on */
    uint32_t tag;     /* the job tag, any value */
} warm_step;

typedef struct {
    uint32_t refusal;
    uint32_t place;
    uint32_t length;   /* the bytes of the sheet */
    uint32_t reserved; /* 0 */
} warm_written;

/*
 * The sheet, of edition 1, of these units, this bound, this start set and these steps, into the first places of a byte
 * output: 24 for the header and 24 for each step. Its records are the steps in their order, tags included. Places after
 * them are left as they are, and so is the whole output on a refusal. An output of WARM_BYTES places is always enough.
 * There must be 1 to 64 units, no unit from that number up in the start set, and at most 256 steps, or it is
 * refusal 11. The steps themselves are not tested: the entries above may refuse the sheet with 6 or 7. If they do not,
 * warm_steps gives back what it was written from, with all units in chamber 1.
 * Takes one pass over the steps. Refusals: 11 and 12.
 */
WARM_CHECKED warm_written warm_write(uint8_t units, uint16_t bound, uint64_t start, const warm_step *steps,
    size_t steps_len, uint8_t *sheet, size_t sheet_len) WARM_NOEXCEPT;

/*
 * A sheet in edition 1, into the first places of a byte output: 24 for the header and 24 for each record. Of a sheet of
 * edition 2, the numbers of chamber 1 are kept, and all units must be there, or it is refusal 15; one of edition 1 is
 * copied as it is. Each record keeps its number, and those that are not reached are converted like the others. Places
 * after the sheet are left as they are, and so is the whole output on a refusal. An output of WARM_BYTES places is
 * always enough. The converted sheet gets the same replies from warm_plan, warm_chart and warm_verdict, refusal 9
 * included, and from warm_steps too, except that the greatest numbers of chambers 2 to 4, which are empty, are 0.
 * Takes two walks along the chain, and one pass over all records. Refusals: 1 to 8 and 13 to 15.
 */
WARM_CHECKED warm_written warm_to_edition_1(
    const uint8_t *sheet, size_t sheet_len, uint8_t *out, size_t out_len) WARM_NOEXCEPT;

/*
 * A sheet in edition 2, into the first places of a byte output: 24 for the header and 32 for each record. Of a sheet of
 * edition 1, all units are then in chamber 1, and the numbers of the other chambers are 0; one of edition 2 is copied
 * as it is. Each record keeps its number, and those that are not reached are converted like the others. Places after
 * the sheet are left as they are, and so is the whole output on a refusal. An output of WARM_BYTES places is always
 * enough. The converted sheet gets the same replies from warm_steps, warm_plan, warm_chart and warm_verdict, refusal 9
 * included, and warm_to_edition_1 gives back the bytes of a sheet that was of edition 1.
 * Takes two walks along the chain, and one pass over all records. Refusals: 1 to 8, 13 and 14.
 */
WARM_CHECKED warm_written warm_to_edition_2(
    const uint8_t *sheet, size_t sheet_len, uint8_t *out, size_t out_len) WARM_NOEXCEPT;

/* The cause of a refusal in words, by its number and its place, as the table above has it. Never NULL: other numbers
   have words of their own. */
static inline const char *warm_cause(uint32_t refusal, uint32_t place)
{
    switch (refusal) {
    case WARM_REFUSAL_LENGTH:
        return "the sheet is shorter than 24 or longer than 8,216 bytes";
    case WARM_REFUSAL_FORM:
        switch (place) {
        case 0:
            return "the letters are not WARM";
        case 4:
            return "the edition is not 1 or 2";
        default:
            break;
        }
        break;
    case WARM_REFUSAL_HEADER:
        switch (place) {
        case 5:
            return "the number of units is not 1 to 64";
        case 6:
            return "there are more than 256 records";
        case 12:
            return "bytes 12 to 15 are not zero in edition 1";
        case 16:
            return "the start set has a unit that the sheet does not have";
        case 24:
            return "the length is not that of the header and the records";
        default:
            break;
        }
        break;
    case WARM_REFUSAL_RECORD_NUMBER:
        return "the number of the first or the next record is above the number of records";
    case WARM_REFUSAL_LOOP:
        return "the next record is already on the chain";
    case WARM_REFUSAL_UPPER_SET:
        return "the upper set has a unit that the sheet does not have";
    case WARM_REFUSAL_NO_SET:
        return "no set of units is feasible in the step";
    case WARM_REFUSAL_SHORT_OUTPUT:
        return "an output has fewer places than the reply fills";
    case WARM_REFUSAL_BOUND:
        return "the bound is below the fewest warm-ups";
    case WARM_REFUSAL_PLAN_LENGTH:
        return "the plan has more or fewer words than there are steps";
    case WARM_REFUSAL_LIMITS:
        return "the number of units, the start set or the number of steps is outside the limits of a sheet";
    case WARM_REFUSAL_NO_ROOM:
        return "the output is shorter than the sheet";
    case WARM_REFUSAL_CHAMBER_SIZES:
        switch (place) {
        case 12:
            return "the chamber sizes in edition 2 do not add up to the number of units";
        default:
            break;
        }
        break;
    case WARM_REFUSAL_RESERVED_BYTES:
        return "bytes 26 to 27 of the step's record are not zero in edition 2";
    case WARM_REFUSAL_OTHER_CHAMBERS:
        switch (place) {
        case 12:
            return "a unit is outside chamber 1";
        default:
            break;
        }
        break;
    default:
        break;
    }
    return "a refusal that this version of warm.h does not know";
}

/* What the place of a refusal is, by its number. */
static inline warm_place warm_place_of(uint32_t refusal)
{
    switch (refusal) {
    case WARM_REFUSAL_LENGTH:
        return WARM_PLACE_WHOLE;
    case WARM_REFUSAL_FORM:
    case WARM_REFUSAL_HEADER:
        return WARM_PLACE_BYTE;
    case WARM_REFUSAL_RECORD_NUMBER:
    case WARM_REFUSAL_LOOP:
        return WARM_PLACE_RECORD;
    case WARM_REFUSAL_UPPER_SET:
    case WARM_REFUSAL_NO_SET:
        return WARM_PLACE_STEP;
    case WARM_REFUSAL_SHORT_OUTPUT:
    case WARM_REFUSAL_BOUND:
    case WARM_REFUSAL_PLAN_LENGTH:
        return WARM_PLACE_COUNT;
    case WARM_REFUSAL_LIMITS:
        return WARM_PLACE_WHOLE;
    case WARM_REFUSAL_NO_ROOM:
        return WARM_PLACE_COUNT;
    case WARM_REFUSAL_CHAMBER_SIZES:
        return WARM_PLACE_BYTE;
    case WARM_REFUSAL_RESERVED_BYTES:
        return WARM_PLACE_STEP;
    case WARM_REFUSAL_OTHER_CHAMBERS:
        return WARM_PLACE_BYTE;
    default:
        break;
    }
    return WARM_PLACE_UNKNOWN;
}

#ifdef __cplusplus
}
#endif

/* The layouts that the archive has been built for. */
#if defined(__cplusplus) && __cplusplus >= 201103L
#define WARM_ASSERT static_assert
#elif defined(__STDC_VERSION__) && __STDC_VERSION__ >= 201112L
#define WARM_ASSERT _Static_assert
#endif
#ifdef WARM_ASSERT
WARM_ASSERT(sizeof(warm_chamber_step) == 32, "warm_chamber_step has 32 bytes");
WARM_ASSERT(offsetof(warm_chamber_step, upper) == 8, "the fields of warm_chamber_step");
WARM_ASSERT(offsetof(warm_chamber_step, least) == 16, "the fields of warm_chamber_step");
WARM_ASSERT(offsetof(warm_chamber_step, greatest) == 20, "the fields of warm_chamber_step");
WARM_ASSERT(offsetof(warm_chamber_step, tag) == 24, "the fields of warm_chamber_step");
WARM_ASSERT(offsetof(warm_chamber_step, reserved) == 28, "the fields of warm_chamber_step");
WARM_ASSERT(sizeof(warm_step) == 24, "warm_step has 24 bytes");
WARM_ASSERT(offsetof(warm_step, greatest) == 17 && offsetof(warm_step, tag) == 20, "the fields of warm_step");
WARM_ASSERT(sizeof(warm_steps_reply) == 48, "warm_steps_reply has 48 bytes");
WARM_ASSERT(offsetof(warm_steps_reply, start) == 24, "the fields of warm_steps_reply");
WARM_ASSERT(offsetof(warm_steps_reply, chambers) == 32, "the fields of warm_steps_reply");
WARM_ASSERT(sizeof(warm_reply) == 16, "warm_reply has 16 bytes");
WARM_ASSERT(offsetof(warm_reply, place) == 4 && offsetof(warm_reply, total) == 8, "the fields of warm_reply");
WARM_ASSERT(offsetof(warm_reply, accepted) == 12, "the fields of warm_reply");
WARM_ASSERT(sizeof(warm_written) == 16, "warm_written has 16 bytes");
WARM_ASSERT(offsetof(warm_written, place) == 4 && offsetof(warm_written, length) == 8, "the fields of warm_written");
WARM_ASSERT(offsetof(warm_written, reserved) == 12, "the fields of warm_written");
#undef WARM_ASSERT
#endif
#undef WARM_CHECKED
#undef WARM_NOEXCEPT

#endif
