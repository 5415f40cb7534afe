/* What the examples print for a refusal: one line on standard error. */
#ifndef REFUSED_H
#define REFUSED_H

#include "warm.h"

#include <inttypes.h>
#include <stdio.h>

/* The line of a refusal, as in "refused 5 at record 4: the next record is already on the chain". Gives the status of
   the program, 1. */
static int refused(uint32_t number, uint32_t place)
{
    fprintf(stderr, "refused %" PRIu32, number);
    switch (warm_place_of(number)) {
    case WARM_PLACE_BYTE:
        fprintf(stderr, " at byte %" PRIu32, place);
        break;
    case WARM_PLACE_RECORD:
        if (place == 0)
            fprintf(stderr, " at the header");
        else
            fprintf(stderr, " at record %" PRIu32, place);
        break;
    case WARM_PLACE_STEP:
        fprintf(stderr, " at step %" PRIu32, place);
        break;
    case WARM_PLACE_UNKNOWN:
        fprintf(stderr, " with place %" PRIu32, place);
        break;
    case WARM_PLACE_COUNT:
    case WARM_PLACE_WHOLE:
    default:
        break;
    }
    fprintf(stderr, ": %s", warm_cause(number, place));
    if (warm_place_of(number) == WARM_PLACE_COUNT)
        fprintf(stderr, " (%" PRIu32 ")", place);
    fprintf(stderr, "\n");
    return 1;
}

#endif
