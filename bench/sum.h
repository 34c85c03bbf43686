/* A sum over lent memory, so that two answers can be compared in one line. */
#pragma once
#include <stddef.h>
#include <stdint.h>

static inline uint64_t sum_of(const void *lent, size_t length)
{
    const uint8_t *bytes = lent;
    uint64_t sum = 0;
    for (size_t i = 0; i < length; i++)
        sum = sum * 31 + bytes[i];
    return sum;
}
