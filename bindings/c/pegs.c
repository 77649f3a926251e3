/*
 * The rows of pegs on the road of the alignment file on standard input, one behind another; or R, number and place. The
 * stations of the pegs are the arguments, in whole millimetres, ascending. Exit status 0 an answer, 1 refused, 2 an
 * argument that is no station, no memory, or a read or write that failed.
 */
#include <errno.h>
#include <inttypes.h>
#include <stdio.h>
#include <stdlib.h>

#include "voardusk.h"

/* One byte more than a file may have tells that it is too long. */
static uint8_t file[8193];

static int read_station(const char *word, uint64_t *station)
{
    char *end;
    /* strtoull takes a blank or a sign too */
    if (*word < '0' || *word > '9')
        return 0;
    errno = 0;
    *station = strtoull(word, &end, 10);
    return errno == 0 && *end == '\0';
}

int main(int argc, char **argv)
{
    size_t count = argc > 0 ? (size_t)argc - 1 : 0;
    /* one more, since no pointer may be null where there is no peg */
    uint64_t *stations = calloc(count + 1, sizeof *stations);
    uint8_t *rows = calloc(count + 1, VOARDUSK_LINE_LENGTH);
    if (stations == NULL || rows == NULL) {
        fputs("pegs: there is no memory\n", stderr);
        return 2;
    }
    for (size_t i = 0; i < count; i++) {
        if (!read_station(argv[i + 1], &stations[i])) {
            fprintf(stderr, "pegs: %s is no station\n", argv[i + 1]);
            return 2;
        }
    }
    size_t length = fread(file, 1, sizeof file, stdin);
    if (ferror(stdin)) {
        fputs("pegs: standard input cannot be read\n", stderr);
        return 2;
    }
    uint64_t answer;
    uint32_t refusal = voardusk_pegs(file, length, stations, count, rows, count * VOARDUSK_LINE_LENGTH, &answer);
    if (refusal != 0)
        printf("R %" PRIu32 " %" PRIu64 "\n", refusal, answer);
    else
        fwrite(rows, 1, answer, stdout);
    if (fflush(stdout) != 0 || ferror(stdout)) {
        fputs("pegs: the rows were not written whole\n", stderr);
        return 2;
    }
    free(stations);
    free(rows);
    return refusal != 0;
}
