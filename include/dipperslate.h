/* The functions that the static library of the crate exports_c has for C. */
#ifndef DIPPERSLATE_H
#define DIPPERSLATE_H

#include <stddef.h>
#include <stdint.h>

/*
 * Judges the rows of a board with this many cores.
 *
 * rows:   `count` rows in priority order, the highest first, each C (worst-case time), D (deadline) and
 *         T (smallest gap) in ticks. They are only read.
 * bounds: a list of `entries` numbers, which the bounds are written into; it does not overlap the rows.
 *
 * The answer is number * 2^32 + place, with number and place of document 01:
 *   0          every row is shown; the first `count` entries hold the bounds, in ticks
 *   1 .. 7     the list is refused, at the place of its first fault (0: the whole list); no entry is written
 *              1 no rows or more than 32, 2 cores 0 or above 16, 3 C is 0, 4 D < C, 5 T < D, 6 T > 1000000,
 *              7 fewer entries than rows
 *   8          the row at the place, counted from 1, is not shown; the entries before it hold the bounds of
 *              the rows before it
 * Every other entry is left as it was. A list of length 0 may have any pointer that is not null and is aligned.
 */
uint64_t dipperslate_analyse(uint32_t cores, const uint64_t (*rows)[3], size_t count, uint64_t *bounds,
                             size_t entries);

#define DIPPERSLATE_NUMBER(answer) ((uint32_t)((answer) >> 32))
#define DIPPERSLATE_PLACE(answer) ((uint32_t)(answer))

#endif
