/*
 * A caller in C: the three rows of document 01 on two cores, then with a deadline that can't be met, then with a fault.
 * Prints the bounds, or the number and place of the answer. README.md beside it says how it is built.
 */
#include <stddef.h>
#include <stdint.h>
#include <stdio.h>

#include "dipperslate.h"

enum { CORES = 2, ROWS = 3, NOT_SHOWN = 8 };

/* How many entries hold a bound: one for each row, or for each before the row not shown; a refused list has none. */
static size_t bounds_given(uint64_t answer)
{
    if (answer == 0) return ROWS;
    return DIPPERSLATE_NUMBER(answer) == NOT_SHOWN ? DIPPERSLATE_PLACE(answer) - 1 : 0;
}

static void judge(const char *name, const uint64_t (*rows)[3])
{
    uint64_t bounds[ROWS];
    uint64_t answer = dipperslate_analyse(CORES, rows, ROWS, bounds, ROWS);

    printf("%s\n", name);
    for (size_t i = 0; i < bounds_given(answer); i++)
        printf("  row %zu: bound %llu, deadline %llu\n", i + 1, (unsigned long long)bounds[i],
               (unsigned long long)rows[i][1]);
    if (answer == 0)
        printf("  all shown\n");
    else
        printf("  number %u at place %u\n", DIPPERSLATE_NUMBER(answer), DIPPERSLATE_PLACE(answer));
}

/* Rows are C, D and T in ticks, the highest priority first. */
int main(void)
{
    static const uint64_t sound[ROWS][3] = {{2, 5, 5}, {3, 8, 8}, {2, 4, 10}};
    static const uint64_t tight[ROWS][3] = {{2, 5, 5}, {3, 8, 8}, {2, 3, 10}};
    static const uint64_t faulty[ROWS][3] = {{2, 5, 5}, {3, 8, 8}, {0, 4, 10}};
    judge("the rows of document 01", sound);
    judge("the third with a deadline of 3", tight);
    judge("the third with no work", faulty);
    return 0;
}
