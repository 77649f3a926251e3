/*
 * Voardusk for C: the row of a station, the next listed station, many rows at a time, the speeds at which a road would
 * pass, and the rows of a list of pegs.
 *
 * Link with libvoardusk.a (`rt lib` in crates/voardusk writes it to crates/voardusk/out; x86-64). No routine keeps
 * state, allocates or calls the system; each needs some 64 KB of stack, and memcpy and memset of the C library.
 *
 * Each routine returns 0, or the number of the refusal that turns the call away: 1 to 19, 22 and 23 for the file, 20
 * for a buffer under 96 bytes for each row asked for, 21 for a row beyond the road's end, 24 for a bad peg
 * (docs/REFUSALS.md). *answer then holds the refusal's place, and the buffer is untouched. The routines check the file,
 * the stations and the buffer's length.
 *
 * The caller owes what C cannot check: no pointer is null, also where its length is 0; file has file_length bytes,
 * stations has station_count numbers, each buffer its length; the buffer, *answer, *next, the stations and the file do
 * not overlap; nobody else writes them meanwhile.
 */
#ifndef VOARDUSK_H
#define VOARDUSK_H

#include <stddef.h>
#include <stdint.h>

#ifdef __cplusplus
extern "C" {
#endif

/* A line needs no more bytes than this; a shorter buffer is refused with 20. */
#define VOARDUSK_LINE_LENGTH 96

/* A list has no more pegs than this; the next one is refused with 24. */
#define VOARDUSK_PEG_COUNT 2000

/* Stands for "there is no station". */
#define VOARDUSK_NO_STATION UINT64_MAX

/*
 * The line of a station, listed or not, over the first bytes of the buffer: *answer is its length, newline
 * included. Only those bytes change.
 */
uint32_t voardusk_row(const uint8_t *file, size_t file_length, uint64_t station,
                      uint8_t *line, size_t line_length, uint64_t *answer);

/* The least listed station not below a station: *answer, VOARDUSK_NO_STATION where there is none. */
uint32_t voardusk_next_station(const uint8_t *file, size_t file_length, uint64_t station,
                               uint64_t *answer);

/*
 * The rows of the listed stations not below a station, one behind another over the first bytes of the buffer, as
 * long as at least 96 bytes are left: *answer is how many bytes, *next the listed station to go on from, or
 * VOARDUSK_NO_STATION where the list is done. A refusal leaves VOARDUSK_NO_STATION in *next.
 */
uint32_t voardusk_list(const uint8_t *file, size_t file_length, uint64_t station,
                       uint8_t *out, size_t out_length, uint64_t *answer, uint64_t *next);

/*
 * The speeds at which the road would pass every rule from 5 on, its own class and terrain put aside: *answer holds seven
 * marks, 40 km/h in the lowest bit, 50 in the next, up to 100 in the seventh. Refused is only a file that cannot be
 * read (1 to 4 and 22).
 */
uint32_t voardusk_marks(const uint8_t *file, size_t file_length, uint64_t *answer);

/*
 * The rows of up to 2,000 pegs, one behind another over the first bytes of the buffer: *answer is how many bytes, 0 for
 * no pegs. Only those bytes change. Each row is the one that voardusk_row gives for the peg's station. The stations
 * ascend; equal ones are allowed. A buffer with less than 96 bytes for each peg is refused with 20 at place 0; then the
 * first peg that lies below the one before it, beyond the road's end, or behind 2,000 others, with 24 at its place.
 */
uint32_t voardusk_pegs(const uint8_t *file, size_t file_length,
                       const uint64_t *stations, size_t station_count,
                       uint8_t *out, size_t out_length, uint64_t *answer);

#ifdef __cplusplus
}
#endif

#endif
