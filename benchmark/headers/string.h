/* The kit's clang comes without headers: what the benchmark uses of the C library's, and no more. */
#pragma once
#include <stddef.h>
void *memcpy(void *to, const void *from, size_t size);
int memcmp(const void *a, const void *b, size_t size);
