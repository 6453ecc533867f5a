/* A plain C engine with the method of the crate analysis: checks, then for each row the least window that passes. */
#include "engine.h"

enum { ROW_CAPACITY = 32, CORE_LIMIT = 16, LARGEST_GAP = 1000000 };

/* What the rows above take from the row judged, and the ticks that they have room for on every core. */
struct taken {
    uint64_t most;
    uint64_t stride;
};

static uint64_t smaller(uint64_t a, uint64_t b) { return a < b ? a : b; }
static uint64_t larger(uint64_t a, uint64_t b) { return a < b ? b : a; }

static uint64_t answer(uint64_t number, uint64_t place) { return (number << 32) + place; }

/* Checks 1 to 7, in their order: 0 where none fails. */
static uint64_t fault(uint32_t cores, const uint64_t (*rows)[3], size_t count, size_t entries)
{
    if (count == 0 || count > ROW_CAPACITY) return answer(1, 0);
    if (cores == 0 || cores > CORE_LIMIT) return answer(2, 0);
    for (size_t i = 0; i < count; i++) {
        if (rows[i][0] == 0) return answer(3, i + 1);
        if (rows[i][1] < rows[i][0]) return answer(4, i + 1);
        if (rows[i][2] < rows[i][1]) return answer(5, i + 1);
        if (rows[i][2] > LARGEST_GAP) return answer(6, i + 1);
    }
    if (entries < count) return answer(7, 0);
    return 0;
}

/* The most work of a row in a window without carry-in. */
static uint64_t plain_work(uint64_t c, uint64_t t, uint64_t x) { return x / t * c + smaller(x % t, c); }

/* The most work of a row with this bound in a window with carry-in. */
static uint64_t carry_work(uint64_t c, uint64_t t, uint64_t bound, uint64_t x)
{
    if (x < c) return c;
    uint64_t before = x - c;
    uint64_t rest = before % t;
    uint64_t idle = t - bound;
    uint64_t carried = rest < idle ? 0 : rest - idle;
    return before / t * c + c + smaller(carried, c - 1);
}

/* What the rows above row k take from it in a window: the most over every choice of at most cores - 1 carriers. */
static struct taken taken_above(uint32_t cores, const uint64_t (*rows)[3], const uint64_t *bounds, size_t k, uint64_t x)
{
    size_t carriers = cores - 1;
    uint64_t mosts[CORE_LIMIT] = {0};
    size_t roomy = 0;
    uint64_t least = LARGEST_GAP;
    uint64_t limit = x - rows[k][0] + 1;
    for (size_t i = 0; i < k; i++) {
        uint64_t c = rows[i][0], t = rows[i][2];
        uint64_t polls = x / t * c + c;
        uint64_t carry = carry_work(c, t, bounds[i], x);
        uint64_t without = smaller(plain_work(c, t, x), limit);
        uint64_t carrying = smaller(carry, limit);
        for (size_t m = carriers; m > 0; m--) mosts[m] = larger(without + mosts[m], carrying + mosts[m - 1]);
        mosts[0] += without;
        uint64_t room = smaller(polls - without, carry - carrying);
        if (room > 0) {
            roomy++;
            least = smaller(room, least);
        }
    }
    return (struct taken){mosts[carriers], roomy > carriers ? least : 0};
}

/* The least window from C to D of row k that passes; 0 where none does. */
static uint64_t bound_of(uint32_t cores, const uint64_t (*rows)[3], const uint64_t *bounds, size_t k)
{
    uint64_t c = rows[k][0], d = rows[k][1];
    for (uint64_t x = c; x <= d;) {
        struct taken taken = taken_above(cores, rows, bounds, k, x);
        uint64_t next = c + taken.most / cores;
        if (next <= x) return x;
        x = larger(next, x + taken.stride + 1);
    }
    return 0;
}

uint64_t plain_analyse(uint32_t cores, const uint64_t (*rows)[3], size_t count, uint64_t *bounds, size_t entries)
{
    uint64_t found = fault(cores, rows, count, entries);
    if (found) return found;
    for (size_t i = 0; i < count; i++) {
        uint64_t bound = bound_of(cores, rows, bounds, i);
        if (bound == 0) return answer(8, i + 1);
        bounds[i] = bound;
    }
    return 0;
}
