/*
 * Calls the seven entries from C as include/warm.h declares them, on sheets of both editions. Each buffer ends where
 * memory that may not be touched begins, so that a read or a write beyond it ends the program. What each call must
 * reply is written out by hand, but for examples/four_runs.sheet, which comes on standard input. Ends with status 1 at
 * the first difference.
 */
#define _DEFAULT_SOURCE
#include "warm.h"

#include <stdio.h>
#include <stdlib.h>
#include <string.h>
#include <sys/mman.h>

static unsigned compared;

static void must(int holds, const char *what)
{
    compared++;
    if (!holds) {
        printf("wrong: %s\n", what);
        exit(1);
    }
}

/* ---- memory */

/* So many bytes, all 0xa5, that end where a page begins that may not be touched. */
static void *lent(size_t bytes)
{
    size_t page = 4096, space = (bytes + page - 1) / page * page;
    uint8_t *start = mmap(NULL, space + page, PROT_READ | PROT_WRITE, MAP_PRIVATE | MAP_ANONYMOUS, -1, 0);
    if (start == MAP_FAILED || mprotect(start + space, page, PROT_NONE) != 0) {
        perror("mmap");
        exit(1);
    }
    memset(start, 0xa5, space);
    return start + space - bytes;
}

static int untouched(const void *memory, size_t bytes)
{
    for (size_t i = 0; i < bytes; i++)
        if (((const uint8_t *)memory)[i] != 0xa5)
            return 0;
    return 1;
}

/* ---- sheets */

static void put(uint8_t *at, int bytes, uint64_t value)
{
    for (int i = 0; i < bytes; i++)
        at[i] = (uint8_t)(value >> 8 * i);
}

static void put_header(uint8_t *sheet, unsigned edition, unsigned units, unsigned records, unsigned bound)
{
    memset(sheet, 0, 24);
    memcpy(sheet, "WARM", 4);
    put(sheet + 4, 1, edition);
    put(sheet + 5, 1, units);
    put(sheet + 6, 2, records);
    put(sheet + 8, 2, records != 0);
    put(sheet + 10, 2, bound);
}

/* Four runs that need unit 0, 1, 2 and 0 again, at most two of three units on; the tag of run j is j. */
static uint8_t *four_runs(unsigned bound)
{
    static const uint64_t lower[4] = { 1, 2, 4, 1 };
    uint8_t *sheet = lent(120);
    put_header(sheet, 1, 3, 4, bound);
    for (unsigned j = 1; j <= 4; j++) {
        put(sheet + 24 * j, 8, lower[j - 1]);
        put(sheet + 24 * j + 8, 8, 7);
        put(sheet + 24 * j + 16, 2, 2 << 8);
        put(sheet + 24 * j + 18, 2, j % 4 ? j + 1 : 0);
        put(sheet + 24 * j + 20, 4, j);
    }
    return sheet;
}

/* In edition 2 the same in chamber 1, and in chamber 3 two units of which exactly one must be on. Chambers 2 and 4 are
   empty; greatest numbers of theirs play no part. */
static uint8_t *two_chambers(unsigned bound)
{
    static const uint64_t lower[4] = { 1, 2, 4, 1 };
    uint8_t *sheet = lent(152);
    put_header(sheet, 2, 5, 4, bound);
    put(sheet + 12, 4, 0x00020003);
    for (unsigned j = 1; j <= 4; j++) {
        put(sheet + 32 * j - 8, 8, lower[j - 1]);
        put(sheet + 32 * j, 8, 31);
        put(sheet + 32 * j + 8, 4, 0x00010000);
        put(sheet + 32 * j + 12, 4, 0xff010702);
        put(sheet + 32 * j + 16, 2, j % 4 ? j + 1 : 0);
        put(sheet + 32 * j + 18, 2, 0);
        put(sheet + 32 * j + 20, 4, j);
    }
    return sheet;
}

/* What these two must give: four_runs at place 0, two_chambers at place 1. The other plan has one warm-up more than the
   fewest. */
static const struct {
    uint8_t *(*sheet)(unsigned bound);
    size_t length;
    uint32_t units, fewest, chambers[4];
    uint64_t upper;
    uint8_t least[4], greatest[4];
    uint64_t plan[4], on[4], off[4], other[6];
} benches[2] = {
    { four_runs, 120, 3, 3, { 3, 0, 0, 0 }, 7, { 0, 0, 0, 0 }, { 2, 0, 0, 0 }, { 1, 3, 5, 5 }, { 3, 3, 5, 5 }, { 6, 4, 2, 6 },
        { 1, 2, 4, 1, 0, 0 } },
    { two_chambers, 152, 5, 4, { 3, 0, 2, 0 }, 31, { 0, 0, 1, 0 }, { 2, 7, 1, 255 }, { 17, 19, 21, 21 }, { 27, 27, 29, 29 }, { 30, 28, 26, 30 },
        { 17, 18, 20, 17, 0, 0 } },
};

/* The runs of that sheet as steps, each with a tag. Of the padding each byte is 0xa5. */
static const warm_step *four_steps(const uint32_t *tags)
{
    static const uint64_t lower[4] = { 1, 2, 4, 1 };
    uint8_t *steps = lent(96);
    for (unsigned i = 0; i < 4; i++) {
        put(steps + 24 * i, 8, lower[i]);
        put(steps + 24 * i + 8, 8, 7);
        put(steps + 24 * i + 16, 2, 2 << 8);
        put(steps + 24 * i + 20, 4, tags[i]);
    }
    return (const warm_step *)(const void *)steps;
}

/* ---- replies */

static int is(warm_reply r, uint32_t refusal, uint32_t place, uint32_t total, uint32_t accepted)
{
    return r.refusal == refusal && r.place == place && r.total == total && r.accepted == accepted;
}

static int are(warm_steps_reply r, uint32_t refusal, uint32_t place, uint32_t units, uint32_t steps, uint32_t bound, const uint32_t *chambers)
{
    return r.refusal == refusal && r.place == place && r.units == units && r.steps == steps && r.bound == bound && r.reserved == 0 && r.start == 0
        && memcmp(r.chambers, chambers, 16) == 0;
}

/* Of a reply that is refused, or of a sheet that has no unit outside chamber 1. */
static int are_in_one(warm_steps_reply r, uint32_t refusal, uint32_t place, uint32_t units, uint32_t steps, uint32_t bound)
{
    uint32_t chambers[4] = { units, 0, 0, 0 };
    return are(r, refusal, place, units, steps, bound, chambers);
}

static int wrote(warm_written r, uint32_t refusal, uint32_t place, uint32_t length)
{
    return r.refusal == refusal && r.place == place && r.length == length && r.reserved == 0;
}

/* The first four words are those given, and the others are as they were. */
static int holds(const uint64_t *out, size_t places, const uint64_t *words)
{
    return memcmp(out, words, 32) == 0 && untouched(out + 4, 8 * (places - 4));
}

/* ---- the entries on outputs of so many places, for each of the two sheets */

static void steps_into(size_t which, size_t places)
{
    warm_chamber_step *list = lent(32 * places);
    warm_steps_reply r = warm_steps(benches[which].sheet(3), benches[which].length, list, places);
    if (places < 4) {
        must(are_in_one(r, 8, 4, 0, 0, 0) && untouched(list, 32 * places), "steps into a list that is too short");
        return;
    }
    must(are(r, 0, 0, benches[which].units, 4, 3, benches[which].chambers), "the reply of steps");
    for (unsigned i = 0; i < 4; i++)
        must(list[i].lower == (i == 3 ? 1 : (uint64_t)1 << i) && list[i].upper == benches[which].upper
                && memcmp(list[i].least, benches[which].least, 4) == 0 && memcmp(list[i].greatest, benches[which].greatest, 4) == 0
                && list[i].tag == i + 1 && list[i].reserved == 0,
            "a step");
    must(untouched(list + 4, 32 * (places - 4)), "places after the steps");
}

static void plan_into(size_t which, size_t places)
{
    uint32_t fewest = benches[which].fewest;
    size_t length = benches[which].length;
    uint64_t *out = lent(8 * places);
    must(is(warm_plan(benches[which].sheet(fewest - 1), length, out, places), places < 4 ? 8 : 9, places < 4 ? 4 : fewest, 0, 0),
        "a bound that is too low");
    must(untouched(out, 8 * places), "a plan that is refused");
    warm_reply r = warm_plan(benches[which].sheet(fewest), length, out, places);
    if (places < 4)
        must(is(r, 8, 4, 0, 0) && untouched(out, 8 * places), "a plan into an output that is too short");
    else
        must(is(r, 0, 0, fewest, 0) && holds(out, places, benches[which].plan), "a plan");
}

static void chart_into(size_t which, size_t places, size_t others)
{
    uint32_t fewest = benches[which].fewest;
    size_t length = benches[which].length;
    uint64_t *on = lent(8 * places), *off = lent(8 * others);
    int shorter = places < 4 || others < 4;
    must(is(warm_chart(benches[which].sheet(fewest - 1), length, on, places, off, others), shorter ? 8 : 9, shorter ? 4 : fewest, 0, 0),
        "a bound that is too low");
    must(untouched(on, 8 * places) && untouched(off, 8 * others), "a chart that is refused");
    warm_reply r = warm_chart(benches[which].sheet(fewest), length, on, places, off, others);
    if (shorter)
        must(is(r, 8, 4, 0, 0) && untouched(on, 8 * places) && untouched(off, 8 * others), "a chart into an output that is too short");
    else
        must(is(r, 0, 0, fewest, 0) && holds(on, places, benches[which].on) && holds(off, others, benches[which].off), "a chart");
}

static void verdict_on(size_t which, size_t words)
{
    uint32_t more = benches[which].fewest + 1;
    size_t length = benches[which].length;
    const uint64_t *made = benches[which].other;
    uint64_t *plan = lent(8 * words);
    memcpy(plan, made, 8 * words);
    must(is(warm_verdict(benches[which].sheet(more - 1), length, plan, words), words == 4 ? 0 : 10, words == 4 ? 0 : 4, words == 4 ? more : 0, 0),
        "a plan above the bound");
    must(is(warm_verdict(benches[which].sheet(more), length, plan, words), words == 4 ? 0 : 10, words == 4 ? 0 : 4, words == 4 ? more : 0, words == 4),
        "a plan within it");
    must(memcmp(plan, made, 8 * words) == 0, "the plan that was handed in");
}

/* ---- sheets that are refused: another number of so many bytes in one of the two */

static void refused_sheets(void)
{
    static const struct {
        size_t which, at;
        int bytes;
        uint32_t number, refusal, place;
    } faults[] = {
        { 0, 0, 1, 'w', 2, 0 }, { 0, 4, 1, 0, 2, 4 }, { 0, 4, 1, 3, 2, 4 }, { 0, 4, 1, 2, 13, 12 }, { 0, 5, 1, 65, 3, 5 }, { 0, 6, 2, 257, 3, 6 },
        { 0, 12, 4, 1, 3, 12 }, { 0, 12, 4, 3, 3, 12 }, { 0, 16, 1, 8, 3, 16 }, { 0, 6, 2, 3, 3, 24 }, { 0, 8, 2, 5, 4, 0 }, { 0, 90, 2, 256, 4, 3 },
        { 0, 114, 2, 2, 5, 4 }, { 0, 80, 1, 15, 6, 3 }, { 0, 64, 1, 3, 7, 2 },
        { 1, 0, 1, 'w', 2, 0 }, { 1, 4, 1, 0, 2, 4 }, { 1, 4, 1, 3, 2, 4 }, { 1, 4, 1, 1, 3, 12 }, { 1, 5, 1, 65, 3, 5 }, { 1, 6, 2, 257, 3, 6 },
        { 1, 5, 1, 4, 13, 12 }, { 1, 12, 4, 0, 13, 12 }, { 1, 12, 4, 0x00020004, 13, 12 }, { 1, 12, 4, 0x80800203, 13, 12 },
        { 1, 12, 4, 0x08ffffff, 13, 12 }, { 1, 16, 1, 32, 3, 16 }, { 1, 6, 2, 3, 3, 24 }, { 1, 8, 2, 5, 4, 0 }, { 1, 112, 2, 256, 4, 3 },
        { 1, 144, 2, 2, 5, 4 }, { 1, 114, 2, 1, 14, 3 }, { 1, 114, 2, 256, 14, 3 }, { 1, 96, 1, 63, 6, 3 }, { 1, 72, 1, 3, 7, 2 },
        { 1, 73, 1, 1, 7, 2 }, { 1, 74, 1, 2, 7, 2 },
    };
    warm_chamber_step *list = lent(32 * 4);
    uint64_t *on = lent(8 * 4), *off = lent(8 * 4);
    uint8_t *converted = lent(152);
    for (size_t i = 0; i < sizeof faults / sizeof *faults; i++) {
        size_t length = benches[faults[i].which].length;
        uint8_t *sheet = benches[faults[i].which].sheet(9);
        uint32_t refusal = faults[i].refusal, place = faults[i].place;
        put(sheet + faults[i].at, faults[i].bytes, faults[i].number);
        must(are_in_one(warm_steps(sheet, length, list, 4), refusal, place, 0, 0, 0), "steps of a sheet that is refused");
        must(is(warm_plan(sheet, length, on, 4), refusal, place, 0, 0), "the plan of a sheet that is refused");
        must(is(warm_chart(sheet, length, on, 4, off, 4), refusal, place, 0, 0), "the chart of a sheet that is refused");
        must(is(warm_verdict(sheet, length, benches[0].plan, 4), refusal, place, 0, 0), "a verdict on a sheet that is refused");
        for (size_t places = 0; places <= 152; places += 152) {
            must(wrote(warm_to_edition_1(sheet, length, converted, places), refusal, place, 0), "a sheet that is refused, to edition 1");
            must(wrote(warm_to_edition_2(sheet, length, converted, places), refusal, place, 0), "a sheet that is refused, to edition 2");
        }
    }
    must(untouched(list, 32 * 4) && untouched(on, 8 * 4) && untouched(off, 8 * 4), "outputs for sheets that are refused");
    must(untouched(converted, 152), "the output for sheets that are refused");
}

/* ---- sheets that are written */

/* Into an output of so many bytes, with canaries before it and after the sheet. */
static void write_into(size_t places)
{
    static const uint32_t tags[4] = { 1, 2, 3, 4 };
    const warm_step *steps = four_steps(tags), *same = four_steps(tags);
    uint8_t *out = lent(places);
    warm_written r = warm_write(3, 3, 0, steps, 4, out, places);
    if (places < 120)
        must(wrote(r, 12, 120, 0) && untouched(out, places), "a sheet into an output that is too short");
    else
        must(wrote(r, 0, 0, 120) && memcmp(out, four_runs(3), 120) == 0 && untouched(out + 120, places - 120), "a sheet");
    must(places == 0 || untouched(out - 64, 64), "bytes before the sheet");
    must(memcmp(steps, same, 96) == 0, "the steps that were handed in");
}

/* Limits, each with an output that is long enough and with none: 11 goes before 12. */
static void write_within(void)
{
    static const struct {
        uint8_t units;
        uint64_t start;
        size_t steps;
    } outside[] = { { 0, 0, 4 }, { 65, 0, 4 }, { 255, 0, 4 }, { 0, 0, 0 }, { 1, 2, 4 }, { 3, 8, 4 }, { 63, (uint64_t)1 << 63, 4 }, { 64, 0, 257 } };
    const warm_step *steps = lent(24 * 257);
    uint8_t *out = lent(24 * 258);
    for (size_t i = 0; i < sizeof outside / sizeof *outside; i++)
        for (size_t places = 0; places <= 24 * 258; places += 24 * 258)
            must(wrote(warm_write(outside[i].units, 3, outside[i].start, steps, outside[i].steps, out, places), 11, 0, 0)
                    && untouched(out, 24 * 258),
                "what is outside the limits of a sheet");
    for (unsigned units = 1; units <= 64; units++) {
        uint8_t header[24];
        put_header(header, 1, units, 0, 999 * units);
        put(header + 16, 8, UINT64_MAX >> (64 - units));
        must(wrote(warm_write((uint8_t)units, (uint16_t)(999 * units), UINT64_MAX >> (64 - units), NULL, 0, out, 24), 0, 0, 24), "a header");
        must(memcmp(out, header, 24) == 0 && untouched(out + 24, 24 * 257), "the bytes of a header");
    }
}

/* The sheet on standard input, and as many steps as a sheet can have, with tags of all widths, which are read back. */
static void write_and_read(void)
{
    static const uint32_t no_tags[4] = { 0, 0, 0, 0 };
    uint8_t stored[121], *out = lent(WARM_BYTES);
    must(fread(stored, 1, sizeof stored, stdin) == 120, "the length of the sheet on standard input");
    must(wrote(warm_write(3, 3, 0, four_steps(no_tags), 4, NULL, 0), 12, 120, 0), "the length of a sheet");
    must(wrote(warm_write(3, 3, 0, four_steps(no_tags), 4, out, 120), 0, 0, 120) && memcmp(out, stored, 120) == 0, "the sheet on standard input");

    enum { LONGEST = 24 * (WARM_STEPS + 1) };
    warm_step *steps = lent(24 * WARM_STEPS), *same = lent(24 * WARM_STEPS);
    warm_chamber_step *list = lent(32 * WARM_STEPS);
    for (unsigned i = 0; i < WARM_STEPS; i++) {
        steps[i].lower = (uint64_t)1 << i % 64;
        steps[i].upper = UINT64_MAX - i * ((uint64_t)1 << i % 56);
        steps[i].upper |= steps[i].lower;
        steps[i].least = (uint8_t)(i % 32);
        steps[i].greatest = (uint8_t)(255 - i % 128);
        steps[i].tag = UINT32_MAX >> i % 32;
    }
    memcpy(same, steps, 24 * WARM_STEPS);
    must(wrote(warm_write(64, 65535, UINT64_MAX, steps, WARM_STEPS, out, WARM_BYTES), 0, 0, LONGEST), "the longest sheet");
    must(untouched(out + LONGEST, WARM_BYTES - LONGEST), "bytes after the longest sheet");
    must(memcmp(same, steps, 24 * WARM_STEPS) == 0, "the steps of the longest sheet");
    warm_steps_reply r = warm_steps(out, LONGEST, list, WARM_STEPS);
    must(r.refusal == 0 && r.units == 64 && r.steps == WARM_STEPS && r.bound == 65535 && r.start == UINT64_MAX, "the longest sheet, read back");
    must(r.chambers[0] == 64 && r.chambers[1] == 0 && r.chambers[2] == 0 && r.chambers[3] == 0, "the chambers, read back");
    for (unsigned i = 0; i < WARM_STEPS; i++) {
        const uint8_t least[4] = { steps[i].least, 0, 0, 0 }, greatest[4] = { steps[i].greatest, 0, 0, 0 };
        must(list[i].lower == steps[i].lower && list[i].upper == steps[i].upper && memcmp(list[i].least, least, 4) == 0
                && memcmp(list[i].greatest, greatest, 4) == 0 && list[i].tag == steps[i].tag && list[i].reserved == 0,
            "a step that was read back");
    }

    /* a step that no set meets, or with a unit that the sheet does not have, is written all the same, and the readers
       refuse it */
    steps[99].greatest = 0;
    must(wrote(warm_write(64, 0, 0, steps, WARM_STEPS, out, LONGEST), 0, 0, LONGEST), "a step that no set meets");
    must(is(warm_plan(out, LONGEST, NULL, 0), 7, 100, 0, 0), "the refusal of a step that no set meets");
    must(wrote(warm_write(63, 0, 0, steps, WARM_STEPS, out, LONGEST), 0, 0, LONGEST), "a unit that the sheet does not have");
    must(is(warm_plan(out, LONGEST, NULL, 0), 6, 1, 0, 0), "the refusal of a unit that the sheet does not have");
}

/* ---- sheets that are converted */

/* The bytes of these digits. */
static uint8_t *bytes_of(const char *digits)
{
    size_t length = strlen(digits) / 2;
    uint8_t *bytes = lent(length);
    for (size_t i = 0; i < length; i++) {
        const char pair[3] = { digits[2 * i], digits[2 * i + 1], 0 };
        bytes[i] = (uint8_t)strtoul(pair, NULL, 16);
    }
    return bytes;
}

/* 64 units and three records, of which the first is unused and the chain goes from the third to the second: in edition
   1, the same in edition 2, and in edition 2 with other bytes where edition 1 has no place for them. */
#define SETS "1817161514131211f8f7f6f5f4f3f2f1"
#define UNUSED "a0a1a2a3a4a5a6a7a8a9aaabacadaeaf"
static const char in_first[] = "5741524d0140030003007271000000008887868584838281"
                               UNUSED "b0b1b2b3b4b5b6b7" SETS "05400000c4c5c6c7" SETS "01fe0200d4d5d6d7";
static const char in_second[] = "5741524d0240030003007271400000008887868584838281"
                                UNUSED "b0000000b1000000b2b30000b4b5b6b7" SETS "050000004000000000000000c4c5c6c7"
                                SETS "01000000fe00000002000000d4d5d6d7";
static const char other_second[] = "5741524d0240030003007271400000008887868584838281"
                                   UNUSED "b0e1e2e3b1e4e5e6b2b3e7e8b4b5b6b7" SETS "0500000040e1e2e300000000c4c5c6c7"
                                   SETS "01000000fee4e5e602000000d4d5d6d7";

/* Each of them in each edition, into an output of so many bytes, with canaries before it and after the sheet. */
static void convert_into(size_t places)
{
    static const struct {
        warm_written (*entry)(const uint8_t *sheet, size_t sheet_len, uint8_t *out, size_t out_len);
        const char *sheet, *converted;
    } conversions[] = {
        { warm_to_edition_1, in_first, in_first }, { warm_to_edition_1, in_second, in_first }, { warm_to_edition_1, other_second, in_first },
        { warm_to_edition_2, in_first, in_second }, { warm_to_edition_2, in_second, in_second }, { warm_to_edition_2, other_second, other_second },
    };
    for (size_t i = 0; i < sizeof conversions / sizeof *conversions; i++) {
        size_t length = strlen(conversions[i].sheet) / 2, needed = strlen(conversions[i].converted) / 2;
        const uint8_t *sheet = bytes_of(conversions[i].sheet), *same = bytes_of(conversions[i].sheet);
        uint8_t *out = lent(places);
        warm_written r = conversions[i].entry(sheet, length, out, places);
        if (places < needed)
            must(wrote(r, 8, (uint32_t)needed, 0) && untouched(out, places), "a converted sheet into an output that is too short");
        else
            must(wrote(r, 0, 0, (uint32_t)needed) && memcmp(out, bytes_of(conversions[i].converted), needed) == 0
                    && untouched(out + needed, places - needed),
                "a converted sheet");
        must(places == 0 || untouched(out - 64, 64), "bytes before the converted sheet");
        must(memcmp(sheet, same, length) == 0, "the sheet that was handed in");
    }
}

/* A unit in another chamber than the first: 15 goes before 8, and in edition 2 the sheet is copied. */
static void convert_chambers(void)
{
    static const uint8_t sizes[][4] = { { 63, 1, 0, 0 }, { 63, 0, 1, 0 }, { 63, 0, 0, 1 }, { 60, 1, 1, 2 } };
    uint8_t *out = lent(WARM_BYTES);
    for (size_t i = 0; i < sizeof sizes / sizeof *sizes; i++) {
        uint8_t *sheet = bytes_of(other_second);
        memcpy(sheet + 12, sizes[i], 4);
        for (size_t places = 0; places <= 120; places++)
            must(wrote(warm_to_edition_1(sheet, 120, out + WARM_BYTES - places, places), 15, 12, 0), "a unit outside chamber 1");
        must(untouched(out, WARM_BYTES), "the output for a unit outside chamber 1");
        must(wrote(warm_to_edition_2(sheet, 120, out, 119), 8, 120, 0) && untouched(out, WARM_BYTES), "an output that is too short for chambers");
        must(wrote(warm_to_edition_2(sheet, 120, out, WARM_BYTES), 0, 0, 120) && memcmp(out, sheet, 120) == 0
                && untouched(out + 120, WARM_BYTES - 120),
            "a copy of a sheet with chambers");
        memset(out, 0xa5, 120);
    }
    must(wrote(warm_to_edition_1(two_chambers(3), 152, NULL, 0), 15, 12, 0), "two chambers, to edition 1");
    must(wrote(warm_to_edition_2(two_chambers(3), 152, out, 152), 0, 0, 152) && memcmp(out, two_chambers(3), 152) == 0, "two chambers");
}

/* As many records as a sheet can have, up and down again, into outputs that are just long enough. The plan stays, or
   its refusal. */
static void convert_longest(void)
{
    enum { LONGEST = 24 * (WARM_STEPS + 1) };
    for (unsigned bound = 0; bound <= WARM_STEPS; bound += WARM_STEPS) {
        uint8_t *sheet = lent(LONGEST), *raised = lent(WARM_BYTES), *lowered = lent(LONGEST);
        uint64_t *before = lent(8 * WARM_STEPS), *after = lent(8 * WARM_STEPS);
        put_header(sheet, 1, 64, WARM_STEPS, bound);
        for (unsigned j = 1; j <= WARM_STEPS; j++) {
            put(sheet + 24 * j, 8, (uint64_t)1 << j % 64);
            put(sheet + 24 * j + 8, 8, UINT64_MAX);
            put(sheet + 24 * j + 16, 2, 1 | 1 << 8);
            put(sheet + 24 * j + 18, 2, j % WARM_STEPS ? j + 1 : 0);
            put(sheet + 24 * j + 20, 4, UINT32_MAX - j);
        }
        must(wrote(warm_to_edition_2(sheet, LONGEST, raised, WARM_BYTES - 1), 8, WARM_BYTES, 0), "the length of the longest sheet there is");
        must(untouched(raised, WARM_BYTES), "the output for the longest sheet there is");
        must(wrote(warm_to_edition_2(sheet, LONGEST, raised, WARM_BYTES), 0, 0, WARM_BYTES), "the longest sheet there is");
        must(wrote(warm_to_edition_1(raised, WARM_BYTES, lowered, LONGEST), 0, 0, LONGEST), "the longest sheet of edition 1");
        must(memcmp(lowered, sheet, LONGEST) == 0, "up and down");
        uint32_t refusal = bound == 0 ? 9 : 0, place = bound == 0 ? WARM_STEPS : 0, total = bound == 0 ? 0 : WARM_STEPS;
        must(is(warm_plan(sheet, LONGEST, before, WARM_STEPS), refusal, place, total, 0), "the plan before");
        must(is(warm_plan(raised, WARM_BYTES, after, WARM_STEPS), refusal, place, total, 0), "the plan after");
        must(memcmp(before, after, 8 * WARM_STEPS) == 0, "the sets of the plan");
    }
}

/* ---- nothing lent, and bytes that are no sheet */

static void nothing_lent(void)
{
    for (unsigned edition = 1; edition <= 2; edition++) {
        uint8_t *sheet = lent(24);
        put_header(sheet, edition, 1, 0, 0);
        put(sheet + 12, 1, edition == 2);
        must(are_in_one(warm_steps(sheet, 24, NULL, 0), 0, 0, 1, 0, 0), "steps of a sheet without a step");
        must(is(warm_plan(sheet, 24, NULL, 0), 0, 0, 0, 0), "the plan of a sheet without a step");
        must(is(warm_chart(sheet, 24, NULL, 0, NULL, 0), 0, 0, 0, 0), "the chart of a sheet without a step");
        must(is(warm_verdict(sheet, 24, NULL, 0), 0, 0, 0, 1), "no words for no step");
        must(wrote(warm_to_edition_1(sheet, 24, NULL, 0), 8, 24, 0), "the length of a sheet without a record, in edition 1");
        must(wrote(warm_to_edition_2(sheet, 24, NULL, 0), 8, 24, 0), "the length of a sheet without a record, in edition 2");
    }
    must(are_in_one(warm_steps(four_runs(3), 120, NULL, 0), 8, 4, 0, 0, 0), "the number of steps");
    must(are_in_one(warm_steps(two_chambers(3), 152, NULL, 0), 8, 4, 0, 0, 0), "the number of steps of edition 2");
    must(are_in_one(warm_steps(NULL, 0, NULL, 0), 1, 0, 0, 0, 0), "steps of no bytes");
    must(is(warm_plan(NULL, 0, NULL, 0), 1, 0, 0, 0), "the plan of no bytes");
    must(is(warm_chart(NULL, 0, NULL, 0, NULL, 0), 1, 0, 0, 0), "the chart of no bytes");
    must(is(warm_verdict(NULL, 0, NULL, 0), 1, 0, 0, 0), "a verdict on no bytes");
    must(wrote(warm_to_edition_1(NULL, 0, NULL, 0), 1, 0, 0), "no bytes, to edition 1");
    must(wrote(warm_to_edition_2(NULL, 0, NULL, 0), 1, 0, 0), "no bytes, to edition 2");
    must(wrote(warm_to_edition_1(four_runs(3), 120, NULL, 0), 8, 120, 0), "the length in edition 1");
    must(wrote(warm_to_edition_2(four_runs(3), 120, NULL, 0), 8, 152, 0), "the length in edition 2");
    must(wrote(warm_write(1, 0, 0, NULL, 0, NULL, 0), 12, 24, 0), "the length of a sheet without a step");
    must(wrote(warm_write(0, 0, 0, NULL, 0, NULL, 0), 11, 0, 0), "a sheet without a unit");
    must(wrote(warm_write(1, 0, 0, NULL, 0, lent(24), 24), 0, 0, 24), "a sheet without a step");
}

/* Bytes of every length up to one above the longest sheet, all of one value, after a header of an edition that asks for
   256 records. */
static void no_sheets(unsigned edition)
{
    size_t whole = edition == 1 ? 6168 : 8216;
    uint64_t *out = lent(8 * WARM_STEPS);
    uint8_t *converted = lent(WARM_BYTES);
    for (size_t length = 0; length <= WARM_BYTES + 1; length++) {
        uint8_t *bytes = lent(WARM_BYTES + 1), *sheet = bytes + WARM_BYTES + 1 - length;
        uint32_t number = length < 24 || length > WARM_BYTES ? 1 : length != whole ? 3 : 4;
        uint32_t place = number == 3 ? 24 : number == 4 ? 1 : 0;
        if (length >= 24) {
            put_header(sheet, edition, 64, 256, 0);
            put(sheet + 12, 4, edition == 1 ? 0 : 0x10101010);
        }
        must(is(warm_plan(sheet, length, out, WARM_STEPS), number, place, 0, 0) && untouched(out, 8 * WARM_STEPS), "bytes that are no sheet");
        must(wrote(warm_to_edition_1(sheet, length, converted, WARM_BYTES), number, place, 0), "bytes that are no sheet, to edition 1");
        must(wrote(warm_to_edition_2(sheet, length, converted, WARM_BYTES), number, place, 0), "bytes that are no sheet, to edition 2");
        munmap((void *)((uintptr_t)bytes & ~(uintptr_t)4095), 4 * 4096);
    }
    must(untouched(converted, WARM_BYTES), "the output for bytes that are no sheet");
}

/* ---- refusals in words */

static void words(void)
{
    static const char unknown[] = "a refusal that this version of warm.h does not know";
    must(strcmp(warm_cause(WARM_REFUSAL_HEADER, 12), "bytes 12 to 15 are not zero in edition 1") == 0, "a cause by its place");
    must(strcmp(warm_cause(WARM_REFUSAL_LOOP, 12), "the next record is already on the chain") == 0, "a cause at any place");
    must(strcmp(warm_cause(WARM_REFUSAL_OTHER_CHAMBERS, 12), "a unit is outside chamber 1") == 0, "the cause of 15");
    must(warm_place_of(WARM_REFUSAL_HEADER) == WARM_PLACE_BYTE, "what a place is");
    must(warm_place_of(WARM_REFUSAL_OTHER_CHAMBERS) == WARM_PLACE_BYTE, "what the place of 15 is");
    for (uint32_t number = 0; number <= 1000; number++) {
        int known = number >= WARM_REFUSAL_LENGTH && number <= WARM_REFUSAL_OTHER_CHAMBERS;
        int by_byte = number == WARM_REFUSAL_FORM || number == WARM_REFUSAL_HEADER || number == WARM_REFUSAL_CHAMBER_SIZES
            || number == WARM_REFUSAL_OTHER_CHAMBERS;
        must((strcmp(warm_cause(number, 99), unknown) == 0) == (!known || by_byte), "which causes are known");
        must((warm_place_of(number) == WARM_PLACE_UNKNOWN) == !known, "which places are known");
    }
}

int main(void)
{
    for (size_t which = 0; which < 2; which++)
        for (size_t places = 0; places <= 6; places++) {
            steps_into(which, places);
            plan_into(which, places);
            verdict_on(which, places);
            for (size_t others = 0; others <= 6; others++)
                chart_into(which, places, others);
        }
    refused_sheets();
    for (size_t places = 0; places <= 145; places++)
        write_into(places);
    write_within();
    write_and_read();
    for (size_t places = 0; places <= 150; places++)
        convert_into(places);
    convert_chambers();
    convert_longest();
    nothing_lent();
    no_sheets(1);
    no_sheets(2);
    words();
    printf("from C: %u comparisons, no difference\n", compared);
    return 0;
}
