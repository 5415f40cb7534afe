/*
 * Converts the campaign sheet on standard input to edition 1 or 2, and writes it to standard output. A sheet that is
 * refused gets one line with the cause, on standard error, and status 1; a wrong call, an input that cannot be read or
 * an output that cannot be written gets status 2.
 *
 *     ./build warm
 *     mkdir -p target/c
 *     cc -Iinclude examples/convert.c target/staticlib/libwarm.a -o target/c/convert
 *     target/c/convert 2 <examples/four_runs.sheet >target/c/raised.sheet
 */
#include "refused.h"
#include "warm.h"

#include <stdio.h>
#include <string.h>

int main(int argc, char **argv)
{
    /* one byte more than the longest sheet, so that a longer input is seen to be too long */
    static uint8_t sheet[WARM_BYTES + 1], converted[WARM_BYTES];
    if (argc != 2 || (strcmp(argv[1], "1") != 0 && strcmp(argv[1], "2") != 0)) {
        fprintf(stderr, "usage: %s 1|2 <SHEET\n", argv[0]);
        return 2;
    }
    size_t length = fread(sheet, 1, sizeof sheet, stdin);
    if (ferror(stdin)) {
        perror("standard input");
        return 2;
    }

    warm_written written;
    if (strcmp(argv[1], "1") == 0)
        written = warm_to_edition_1(sheet, length, converted, sizeof converted);
    else
        written = warm_to_edition_2(sheet, length, converted, sizeof converted);
    if (written.refusal != 0)
        return refused(written.refusal, written.place);
    if (fwrite(converted, 1, written.length, stdout) != written.length || fflush(stdout) != 0) {
        perror("standard output");
        return 2;
    }
    return 0;
}
