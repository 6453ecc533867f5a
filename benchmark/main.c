/* Measures the proved engine against the plain C engine, both in this process, and prints a table. */
#include <stdio.h>
#include <stdlib.h>
#include <string.h>
#include <time.h>

#include "dipperslate.h"
#include "engine.h"
#include "lists.h"

enum { ENTRIES = 40 };

static const uint64_t UNTOUCHED = 0xdeadbeefdeadbeef;

typedef uint64_t engine(uint32_t, const uint64_t (*)[3], size_t, uint64_t *, size_t);

/* The time that this process has had on a processor: what else runs on the machine does not count. */
static double now(void)
{
    struct timespec t;
    clock_gettime(CLOCK_PROCESS_CPUTIME_ID, &t);
    return (double)t.tv_sec + (double)t.tv_nsec * 1e-9;
}

/* Both engines on one list, once: the answer, or the end of the program where they differ. */
static uint64_t agreed(const struct list *l, size_t entries)
{
    uint64_t a[ENTRIES], b[ENTRIES];
    for (size_t i = 0; i < ENTRIES; i++) a[i] = b[i] = UNTOUCHED;
    uint64_t x = dipperslate_analyse(l->cores, l->rows, l->count, a, entries);
    uint64_t y = plain_analyse(l->cores, l->rows, l->count, b, entries);
    if (x != y || memcmp(a, b, sizeof a) != 0) {
        printf("THE ENGINES DIFFER: %u cores, %zu rows: %llx and %llx\n", l->cores, l->count, (unsigned long long)x,
               (unsigned long long)y);
        exit(1);
    }
    return x;
}

/* what the measured runs answered, so that none is left out by the compiler */
static volatile uint64_t last_sum;

/* The seconds that an engine takes for so many runs over these lists. */
static double runs(engine *f, const struct list *lists, size_t n, size_t times)
{
    uint64_t kept = 0;
    uint64_t bounds[ENTRIES];
    double start = now();
    for (size_t r = 0; r < times; r++)
        for (size_t i = 0; i < n; i++) kept += f(lists[i].cores, lists[i].rows, lists[i].count, bounds, ENTRIES);
    double taken = now() - start;
    last_sum = kept;
    return taken;
}

struct times {
    double proved;
    double plain;
};

/* The least time of a run over these lists by each engine, the two in turn, until the given time has passed. */
static struct times measured(const struct list *lists, size_t n, double seconds)
{
    size_t times = 1;
    while (times < 1000000 && runs(plain_analyse, lists, n, times) < 0.002) times *= 2;
    struct times least = {1e9, 1e9};
    double start = now();
    for (size_t round = 0; round < 5 || now() - start < seconds; round++) {
        double a = runs(dipperslate_analyse, lists, n, times) / (double)times;
        double b = runs(plain_analyse, lists, n, times) / (double)times;
        if (a < least.proved) least.proved = a;
        if (b < least.plain) least.plain = b;
    }
    return least;
}

static void print_answer(uint64_t x, char *out, size_t size)
{
    if (x == 0) snprintf(out, size, "all shown");
    else snprintf(out, size, "%u at %u", DIPPERSLATE_NUMBER(x), DIPPERSLATE_PLACE(x));
}

static void heading(const char *what)
{
    printf("\n| %s | Answer | Proved engine | Plain C | Ratio |\n|---|---|---|---|---|\n", what);
}

static void line(const char *name, const char *said, struct times t)
{
    const char *unit = t.proved < 1e-3 ? "µs" : "ms";
    double scale = t.proved < 1e-3 ? 1e6 : 1e3;
    printf("| %s | %s | %.2f %s | %.2f %s | %.2f |\n", name, said, t.proved * scale, unit, t.plain * scale, unit,
           t.proved / t.plain);
}

/* Lists of every kind, refused ones too, in which the engines have to agree; says how many have each number. */
static void compare(void)
{
    size_t with[9] = {0};
    for (uint64_t seed = 1; seed <= 20000; seed++) {
        struct list l = any_list(seed);
        with[DIPPERSLATE_NUMBER(agreed(&l, seed % 7 == 0 ? seed % ENTRIES : ENTRIES))]++;
    }
    printf("Same answers and bounds on 20000 lists: %zu all shown", with[0]);
    for (size_t i = 1; i < 9; i++) printf(", %zu with %zu", with[i], i);
    printf("\n");
}

static double largest_ratio(const struct list *lists, size_t n, double seconds)
{
    double largest = 0;
    for (size_t i = 0; i < n; i++) {
        struct times t = measured(&lists[i], 1, seconds);
        if (t.proved / t.plain > largest) largest = t.proved / t.plain;
    }
    return largest;
}

/* A family of lists as one line: how many of them are shown, the mean time of a list. */
static void family(const char *name, const struct list *lists, size_t n, double seconds)
{
    size_t shown = 0;
    for (size_t i = 0; i < n; i++) shown += agreed(&lists[i], ENTRIES) == 0;
    struct times t = measured(lists, n, seconds);
    char said[64];
    snprintf(said, sizeof said, "%zu of %zu shown", shown, n);
    line(name, said, (struct times){t.proved / (double)n, t.plain / (double)n});
}

static void near_full_load(double seconds)
{
    struct list full[20], last[20];
    for (uint64_t i = 0; i < 20; i++) {
        full[i] = loaded_list(i + 1, 32, 16, 970);
        last[i] = fullest_list(i + 1, 32, 16);
    }
    heading("32 rows on 16 cores, a list of the family");
    family("load 97 % of the cores", full, 20, seconds);
    family("the largest load that is still shown", last, 20, seconds);
    printf("\nThe largest ratio of one of these lists: %.2f\n",
           larger_of(largest_ratio(full, 20, seconds / 5), largest_ratio(last, 20, seconds / 5)));
}

static void slow(double seconds)
{
    heading("Slow list");
    for (size_t i = 0; i < SLOW_LISTS; i++) {
        const char *name;
        struct list l = slow_list(i, &name);
        char said[64];
        print_answer(agreed(&l, ENTRIES), said, sizeof said);
        line(name, said, measured(&l, 1, seconds));
    }
}

static void growth(double seconds)
{
    heading("Rows, on half as many cores");
    for (size_t n = 4; n <= 32; n += 4) {
        struct list lists[20];
        for (uint64_t i = 0; i < 20; i++) lists[i] = fullest_list(i + 1, n, (uint32_t)n / 2);
        char name[16];
        snprintf(name, sizeof name, "%zu", n);
        family(name, lists, 20, seconds);
    }
}

int main(int count, char **words)
{
    double seconds = count > 1 ? atof(words[1]) : 1.0;
    compare();
    near_full_load(seconds);
    slow(seconds);
    growth(seconds);
    return 0;
}
