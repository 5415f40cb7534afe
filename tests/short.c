/*
 * Calls each entry for the sheet on standard input with nothing lent to it: no output, and to the verdict no plan.
 * Prints a line for each: its name, the refusal and its place, and the cause in words. tests/refusals compares them
 * with the table of docs/FORMAT.md.
 */
#include "warm.h"

#include <inttypes.h>
#include <stdio.h>

static void print(const char *entry, uint32_t refusal, uint32_t place)
{
    printf("%s %" PRIu32 " %" PRIu32 " %s\n", entry, refusal, place, warm_cause(refusal, place));
}

int main(void)
{
    static uint8_t sheet[WARM_BYTES + 1];
    static warm_chamber_step list[WARM_STEPS];
    static warm_step steps[WARM_STEPS];
    size_t length = fread(sheet, 1, sizeof sheet, stdin);
    warm_steps_reply all = warm_steps(sheet, length, list, WARM_STEPS);
    for (uint32_t i = 0; i < all.steps; i++)
        steps[i] = (warm_step) { list[i].lower, list[i].upper, list[i].least[0], list[i].greatest[0], list[i].tag };

    warm_steps_reply listed = warm_steps(sheet, length, NULL, 0);
    print("steps", listed.refusal, listed.place);
    warm_reply reply = warm_plan(sheet, length, NULL, 0);
    print("plan", reply.refusal, reply.place);
    reply = warm_chart(sheet, length, NULL, 0, NULL, 0);
    print("chart", reply.refusal, reply.place);
    reply = warm_verdict(sheet, length, NULL, 0);
    print("verdict", reply.refusal, reply.place);
    warm_written written = warm_write((uint8_t)all.units, (uint16_t)all.bound, all.start, steps, all.steps, NULL, 0);
    print("write", written.refusal, written.place);
    written = warm_to_edition_1(sheet, length, NULL, 0);
    print("to_edition_1", written.refusal, written.place);
    written = warm_to_edition_2(sheet, length, NULL, 0);
    print("to_edition_2", written.refusal, written.place);
    return 0;
}
