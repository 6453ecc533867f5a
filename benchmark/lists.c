/* The lists that the engines are measured on. */
#include "lists.h"

#include <stdlib.h>
#include <string.h>

#include "engine.h"

static const uint64_t GAP = 1000000;

double larger_of(double a, double b) { return a < b ? b : a; }

/* splitmix64, so that a seed gives the same list on each machine */
static uint64_t draw(uint64_t *state)
{
    uint64_t z = (*state += 0x9e3779b97f4a7c15);
    z = (z ^ (z >> 30)) * 0xbf58476d1ce4e5b9;
    z = (z ^ (z >> 27)) * 0x94d049bb133111eb;
    return z ^ (z >> 31);
}

static uint64_t between(uint64_t *state, uint64_t low, uint64_t high) { return low + draw(state) % (high - low + 1); }

static void add(struct list *l, size_t times, uint64_t c, uint64_t d, uint64_t t)
{
    for (size_t i = 0; i < times && l->count < MOST_ROWS; i++) {
        uint64_t row[3] = {c, d, t};
        memcpy(l->rows[l->count++], row, sizeof row);
    }
}

struct list any_list(uint64_t seed)
{
    uint64_t s = seed;
    struct list l = {0};
    l.cores = (uint32_t)(between(&s, 0, 19) == 0 ? between(&s, 0, 17) : between(&s, 1, 8));
    size_t count = (size_t)(between(&s, 0, 19) == 0 ? between(&s, 0, MOST_ROWS) : between(&s, 1, 12));
    for (size_t i = 0; i < count; i++) {
        uint64_t t = between(&s, 0, 999) == 0 ? between(&s, GAP - 1, GAP + 1) : between(&s, 1, 40);
        uint64_t d = between(&s, 0, 99) == 0 ? between(&s, 0, t + 1) : between(&s, 1 + t / 2, t);
        uint64_t c = between(&s, 0, 99) == 0 ? between(&s, 0, d + 1) : between(&s, 1, 1 + d / 3);
        add(&l, 1, c, d, t);
    }
    return l;
}

static int by_gap(const void *a, const void *b)
{
    uint64_t x = ((const uint64_t *)a)[2], y = ((const uint64_t *)b)[2];
    return (x > y) - (x < y);
}

struct list loaded_list(uint64_t seed, size_t count, uint32_t cores, uint64_t thousandths)
{
    uint64_t s = seed, sum = 0;
    struct list l = {.cores = cores};
    for (size_t i = 0; i < count; i++) {
        /* gaps in each of three decades alike */
        uint64_t scale = 1000;
        for (uint64_t k = between(&s, 0, 2); k > 0; k--) scale *= 10;
        uint64_t t = between(&s, scale, scale * 10);
        uint64_t weight = between(&s, 100, 1000);
        sum += weight;
        add(&l, 1, weight, t, t);
    }
    for (size_t i = 0; i < count; i++) {
        uint64_t t = l.rows[i][2], c = l.rows[i][0] * t / 1000 * cores * thousandths / sum;
        l.rows[i][0] = c < 1 ? 1 : c > t ? t : c;
    }
    qsort(l.rows, count, sizeof l.rows[0], by_gap);
    return l;
}

struct list fullest_list(uint64_t seed, size_t count, uint32_t cores)
{
    uint64_t bounds[MOST_ROWS];
    struct list best = loaded_list(seed, count, cores, 1);
    for (uint64_t thousandths = 2; thousandths <= 1000; thousandths++) {
        struct list l = loaded_list(seed, count, cores, thousandths);
        if (plain_analyse(l.cores, l.rows, l.count, bounds, MOST_ROWS) == 0) best = l;
    }
    return best;
}

/* rows (1,2,2) (1,3,3) (1,7,7) (1,43,43) and one with the last gap, each so many times */
static void add_close(struct list *l, size_t times, uint64_t last)
{
    add(l, times, 1, 2, 2);
    add(l, times, 1, 3, 3);
    add(l, times, 1, 7, 7);
    add(l, times, 1, 43, 43);
    add(l, times, 1, last, last);
}

struct list slow_list(size_t index, const char **name)
{
    static const char *names[SLOW_LISTS] = {
        "M 1: (1,2,2) (1,3,3) (1,7,7) (1,43,43) (1,1807,1807) (1,10⁶,10⁶)",
        "M 1: (500000,10⁶,10⁶) (1,10⁶,10⁶)",
        "M 2: 2 × (400000,10⁶,10⁶), (1,10⁶,10⁶)",
        "32 rows, M 1: (1,2,2) (1,3,3) (1,7,7) (1,43,43) (1,1807,1807), 27 × (1,10⁶,10⁶)",
        "32 rows, M 1: 31 × (16129,10⁶,10⁶), (1,10⁶,10⁶)",
        "32 rows, M 2: 31 × (25806,10⁶,10⁶), (1,10⁶,10⁶)",
        "32 rows, M 16: 31 × (400000,10⁶,10⁶), (1,10⁶,10⁶)",
        "32 rows, M 16: 31 × (510000,10⁶,10⁶), (1,10⁶,10⁶)",
        "32 rows, M 6: 6 × each of (1,2,2) (1,3,3) (1,7,7) (1,43,43) (1,1807,1807), 2 × (1,10⁶,10⁶)",
        "32 rows, M 16: 30 × (1,2,2), (999999,10⁶,10⁶), (1,10⁶,10⁶)",
        "32 rows, M 1: (1,2,2) (1,3,3) (1,7,7) (1,43,43) (1,1900,1900), 27 × (1,10⁶,10⁶)",
        "32 rows, M 2: 2 × each of (1,2,2) (1,3,3) (1,7,7) (1,43,43) (1,1840,1840), 22 × (1,10⁶,10⁶)",
        "32 rows, M 3: 3 × each of (1,2,2) (1,3,3) (1,7,7) (1,43,43) (1,1826,1826), 17 × (1,10⁶,10⁶)",
        "32 rows, M 4: 4 × each of (1,2,2) (1,3,3) (1,7,7) (1,43,43) (1,1818,1818), 12 × (1,10⁶,10⁶)",
    };
    static const uint32_t cores[SLOW_LISTS] = {1, 1, 2, 1, 1, 2, 16, 16, 6, 16, 1, 2, 3, 4};
    struct list l = {.cores = cores[index]};
    *name = names[index];
    switch (index) {
    case 0: add_close(&l, 1, 1807); break;
    case 1: add(&l, 1, 500000, GAP, GAP); break;
    case 2: add(&l, 2, 400000, GAP, GAP); break;
    case 3: add_close(&l, 1, 1807); add(&l, 26, 1, GAP, GAP); break;
    case 4: add(&l, 31, 16129, GAP, GAP); break;
    case 5: add(&l, 31, 25806, GAP, GAP); break;
    case 6: add(&l, 31, 400000, GAP, GAP); break;
    case 7: add(&l, 31, 510000, GAP, GAP); break;
    case 8: add_close(&l, 6, 1807); add(&l, 1, 1, GAP, GAP); break;
    case 9: add(&l, 30, 1, 2, 2); add(&l, 1, 999999, GAP, GAP); break;
    case 10: add_close(&l, 1, 1900); add(&l, 26, 1, GAP, GAP); break;
    case 11: add_close(&l, 2, 1840); add(&l, 21, 1, GAP, GAP); break;
    case 12: add_close(&l, 3, 1826); add(&l, 16, 1, GAP, GAP); break;
    default: add_close(&l, 4, 1818); add(&l, 11, 1, GAP, GAP); break;
    }
    add(&l, 1, 1, GAP, GAP);
    return l;
}
