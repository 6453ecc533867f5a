/* The kit's clang comes without headers: what the benchmark uses of the C library's, and no more. */
#pragma once
#include <stddef.h>
double atof(const char *text);
void exit(int status);
void qsort(void *base, size_t count, size_t size, int (*compare)(const void *, const void *));
