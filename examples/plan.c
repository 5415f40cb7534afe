/*
 * Prints the plan of the campaign sheet on standard input, and in each step the units that could be the other way round
 * within the bound. A sheet that is refused gets one line with the cause, on standard error, and status 1; a wrong call
 * or an input that cannot be read gets status 2.
 *
 *     ./build warm
 *     mkdir -p target/c
 *     cc -Iinclude examples/plan.c target/staticlib/libwarm.a -o target/c/plan
 *     target/c/plan <examples/four_runs.sheet
 */
#include "refused.h"
#include "warm.h"

#include <inttypes.h>
#include <stdio.h>

/* The units of a set, as in " 0 2 5". */
static void print_units(uint64_t set)
{
    if (set == 0)
        printf(" none");
    for (unsigned u = 0; u < WARM_UNITS; u++)
        if (set >> u & 1)
            printf(" %u", u);
}

int main(int argc, char **argv)
{
    /* one byte more than the longest sheet, so that a longer input is seen to be too long */
    static uint8_t sheet[WARM_BYTES + 1];
    static warm_chamber_step steps[WARM_STEPS];
    static uint64_t sets[WARM_STEPS], on[WARM_STEPS], off[WARM_STEPS];
    if (argc != 1) {
        fprintf(stderr, "usage: %s <SHEET\n", argv[0]);
        return 2;
    }
    size_t length = fread(sheet, 1, sizeof sheet, stdin);
    if (ferror(stdin)) {
        perror("standard input");
        return 2;
    }

    warm_steps_reply summary = warm_steps(sheet, length, steps, WARM_STEPS);
    if (summary.refusal != 0)
        return refused(summary.refusal, summary.place);
    warm_reply plan = warm_plan(sheet, length, sets, WARM_STEPS);
    if (plan.refusal != 0)
        return refused(plan.refusal, plan.place);
    warm_reply chart = warm_chart(sheet, length, on, WARM_STEPS, off, WARM_STEPS);
    if (chart.refusal != 0)
        return refused(chart.refusal, chart.place);

    printf("%" PRIu32 " units, %" PRIu32 " steps, at most %" PRIu32 " warm-ups\n", summary.units, summary.steps, summary.bound);
    for (uint32_t i = 0; i < summary.steps; i++) {
        printf("step %" PRIu32 " (job %" PRIu32 "): on", i + 1, steps[i].tag);
        print_units(sets[i]);
        printf("; could be on");
        print_units(on[i] & ~sets[i]);
        printf("; could be off");
        print_units(off[i] & sets[i]);
        printf("\n");
    }
    printf("%" PRIu32 " warm-ups\n", plan.total);
    return 0;
}
