/* The kit's clang comes without headers: what the benchmark uses of the C library's, and no more. */
#pragma once
#include <stddef.h>
int printf(const char *format, ...);
int snprintf(char *out, size_t size, const char *format, ...);
