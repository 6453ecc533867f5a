/* The plain C engine, which the proved one is measured against: the same call, the same answers. */
#ifndef ENGINE_H
#define ENGINE_H

#include <stddef.h>
#include <stdint.h>

uint64_t plain_analyse(uint32_t cores, const uint64_t (*rows)[3], size_t count, uint64_t *bounds, size_t entries);

#endif
