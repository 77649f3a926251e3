/* Lists the alignment file on standard input: the list, or R, number and place. Exit status 0 listed, 1 refused, 2 a read or write failed. */
#include <inttypes.h>
#include <stdio.h>

#include "voardusk.h"

/* One byte more than a file may have tells that it is too long. */
static uint8_t file[8193];
static uint8_t rows[65536];

int main(void)
{
    size_t length = fread(file, 1, sizeof file, stdin);
    if (ferror(stdin)) {
        fputs("list: standard input cannot be read\n", stderr);
        return 2;
    }
    uint64_t station = 0;
    while (station != VOARDUSK_NO_STATION) {
        uint64_t answer;
        uint32_t refusal = voardusk_list(file, length, station, rows, sizeof rows, &answer, &station);
        if (refusal != 0) {
            printf("R %" PRIu32 " %" PRIu64 "\n", refusal, answer);
            return 1;
        }
        if (fwrite(rows, 1, answer, stdout) != answer)
            break;
    }
    if (fflush(stdout) != 0 || ferror(stdout)) {
        fputs("list: the list was not written whole\n", stderr);
        return 2;
    }
    return 0;
}
