/* The kit's clang comes without headers: what the benchmark uses of the C library's, and no more. */
#pragma once
struct timespec {
    long tv_sec;
    long tv_nsec;
};
#define CLOCK_PROCESS_CPUTIME_ID 2
int clock_gettime(int clock, struct timespec *out);
