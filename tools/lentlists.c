/*
 * A caller in C: reads lists of rows from standard input, has each judged through the exported function and writes the
 * answer and what the caller's array then holds, for a comparison with another program. second/README.md has the frames.
 */
#include <stddef.h>
#include <stdint.h>
#include <unistd.h>

#include "dipperslate.h"

/* The lent bounds list stands inside the caller's array, with entries before and behind it that must stay as they are. */
enum { FRONT = 4, MOST_ENTRIES = 40, ENTRIES = FRONT + MOST_ENTRIES + 4, MOST_ROWS = 40 };
enum { HEAD = 6, ROW = 24, MOST_BYTES = HEAD + MOST_ROWS * ROW, ANSWER = 8 * (1 + ENTRIES) };

static const uint64_t UNTOUCHED = 0xA5A5A5A5A5A5A500;

/* Most significant byte first. */
static uint64_t number(const unsigned char *bytes, int size)
{
    uint64_t n = 0;
    for (int i = 0; i < size; i++) n = n << 8 | bytes[i];
    return n;
}

static void put(unsigned char *bytes, int size, uint64_t n)
{
    for (int i = size - 1; i >= 0; i--, n >>= 8) bytes[i] = (unsigned char)n;
}

/* Whether so many bytes were there. */
static int take(unsigned char *bytes, size_t size)
{
    while (size > 0) {
        long got = read(0, bytes, size);
        if (got <= 0) return 0;
        bytes += got;
        size -= (size_t)got;
    }
    return 1;
}

/* Whether so many bytes were written. */
static int give(const unsigned char *bytes, size_t size)
{
    while (size > 0) {
        long put = write(1, bytes, size);
        if (put <= 0) return 0;
        bytes += put;
        size -= (size_t)put;
    }
    return 1;
}

/* Judges the list in a frame's bytes and writes the frame of its answer; whether it was written. */
static int judge(const unsigned char *frame, size_t size)
{
    static uint64_t rows[MOST_ROWS][3];
    uint64_t entries[ENTRIES];
    unsigned char out[2 + ANSWER];
    size_t count = (size - HEAD) / ROW;
    for (size_t i = 0; i < count; i++)
        for (size_t k = 0; k < 3; k++) rows[i][k] = number(frame + HEAD + i * ROW + k * 8, 8);
    for (size_t i = 0; i < ENTRIES; i++) entries[i] = UNTOUCHED + i;

    uint32_t cores = (uint32_t)number(frame, 4);
    size_t lent = (size_t)number(frame + 4, 2);
    uint64_t answer = dipperslate_analyse(cores, (const uint64_t(*)[3])rows, count, entries + FRONT, lent);

    put(out, 2, ANSWER);
    put(out + 2, 8, answer);
    for (size_t i = 0; i < ENTRIES; i++) put(out + 10 + 8 * i, 8, entries[i]);
    return give(out, sizeof out);
}

/* Ends with status 0 at the end of the input, and with 1 at a frame that is cut short or no list. */
int main(void)
{
    unsigned char head[2], frame[MOST_BYTES];
    while (take(head, 1)) {
        if (!take(head + 1, 1)) return 1;
        size_t size = (size_t)number(head, 2);
        if (size < HEAD || size > MOST_BYTES || (size - HEAD) % ROW != 0 || !take(frame, size)) return 1;
        if (number(frame + 4, 2) > MOST_ENTRIES || !judge(frame, size)) return 1;
    }
    return 0;
}
