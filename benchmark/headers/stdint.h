/* The kit's clang comes without headers: what the benchmark uses of the C library's, and no more. */
#pragma once
typedef __UINT32_TYPE__ uint32_t;
typedef __UINT64_TYPE__ uint64_t;
