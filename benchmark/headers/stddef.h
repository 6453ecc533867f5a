/* The kit's clang comes without headers: what the benchmark uses of the C library's, and no more. */
#pragma once
typedef __SIZE_TYPE__ size_t;
