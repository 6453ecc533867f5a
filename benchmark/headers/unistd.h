/* The kit's clang comes without headers: what the callers in C use of the C library's, and no more. */
#pragma once
#include <stddef.h>
long read(int file, void *bytes, size_t size);
long write(int file, const void *bytes, size_t size);
