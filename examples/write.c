/*
 * Writes a sheet and prints its plan: four steps that need unit 0, unit 1, unit 2 and unit 0 again, with at most two of
 * three units on. The bound is three warm-ups, and nothing is on at the start.
 *
 *     ./build warm
 *     mkdir -p target/c
 *     cc -Iinclude examples/write.c target/staticlib/libwarm.a -o target/c/write
 *     target/c/write
 */
#include "refused.h"
#include "warm.h"

#include <inttypes.h>
#include <stdio.h>

int main(void)
{
    /* lower set, upper set, least and greatest number, tag */
    static const warm_step steps[4] = { { 1, 7, 0, 2, 0 }, { 2, 7, 0, 2, 0 }, { 4, 7, 0, 2, 0 }, { 1, 7, 0, 2, 0 } };
    static uint8_t sheet[WARM_BYTES];
    static uint64_t sets[WARM_STEPS];

    warm_written written = warm_write(3, 3, 0, steps, 4, sheet, sizeof sheet);
    if (written.refusal != 0)
        return refused(written.refusal, written.place);
    warm_reply plan = warm_plan(sheet, written.length, sets, WARM_STEPS);
    if (plan.refusal != 0)
        return refused(plan.refusal, plan.place);
    for (int i = 0; i < 4; i++)
        printf("step %d: %#" PRIx64 "\n", i + 1, sets[i]);
    printf("%" PRIu32 " warm-ups\n", plan.total);
    return 0;
}
