/*
 * The speeds at which the road of the alignment file on standard input would pass: the marks as a number, then each
 * speed in km/h; or R, number and place. Exit status 0 an answer, 1 refused, 2 a read or write failed.
 */
#include <inttypes.h>
#include <stdio.h>

#include "voardusk.h"

/* One byte more than a file may have tells that it is too long. */
static uint8_t file[8193];

int main(void)
{
    size_t length = fread(file, 1, sizeof file, stdin);
    if (ferror(stdin)) {
        fputs("marks: standard input cannot be read\n", stderr);
        return 2;
    }
    uint64_t answer;
    uint32_t refusal = voardusk_marks(file, length, &answer);
    if (refusal != 0) {
        printf("R %" PRIu32 " %" PRIu64 "\n", refusal, answer);
    } else {
        printf("%" PRIu64, answer);
        for (int bit = 0; bit < 7; bit++)
            if (answer >> bit & 1)
                printf(" %d", 40 + 10 * bit);
        putchar('\n');
    }
    if (fflush(stdout) != 0 || ferror(stdout)) {
        fputs("marks: the answer was not written whole\n", stderr);
        return 2;
    }
    return refusal != 0;
}
