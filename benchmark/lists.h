/* The lists that the engines are measured on; the same at each run. */
#ifndef LISTS_H
#define LISTS_H

#include <stddef.h>
#include <stdint.h>

enum { MOST_ROWS = 34, SLOW_LISTS = 14 };

struct list {
    uint32_t cores;
    size_t count;
    uint64_t rows[MOST_ROWS][3];
};

/* Any list, often with a fault: short gaps, up to 34 rows. */
struct list any_list(uint64_t seed);

/* Rows with random gaps, D = T, in rising order of T, whose load is so many thousandths of the cores. */
struct list loaded_list(uint64_t seed, size_t count, uint32_t cores, uint64_t thousandths);

/* The same rows with the largest load, in thousandths, at which the plain C engine shows every row. */
struct list fullest_list(uint64_t seed, size_t count, uint32_t cores);

/* Lists on which a search by single steps is slow: rows that work half their gap, and lists of 32 rows built like them. */
struct list slow_list(size_t index, const char **name);

double larger_of(double a, double b);

#endif
