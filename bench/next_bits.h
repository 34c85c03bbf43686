/* The table of NMRU's next bits for eight ways: those after line j is accessed under pattern p, at entry 8p + j. "if then all k bits are 1, all the others become 0" */
#pragma once
#include <stdint.h>

#define NEXT(p, j) (((p) | 1 << (j)) == 255 ? 1 << (j) : ((p) | 1 << (j)))
#define LINES(p) NEXT(p, 0), NEXT(p, 1), NEXT(p, 2), NEXT(p, 3), NEXT(p, 4), NEXT(p, 5), NEXT(p, 6), NEXT(p, 7)
#define PATTERNS4(p) LINES(p), LINES((p) + 1), LINES((p) + 2), LINES((p) + 3)
#define PATTERNS16(p) PATTERNS4(p), PATTERNS4((p) + 4), PATTERNS4((p) + 8), PATTERNS4((p) + 12)
#define PATTERNS64(p) PATTERNS16(p), PATTERNS16((p) + 16), PATTERNS16((p) + 32), PATTERNS16((p) + 48)
static const uint8_t next_bits[2048] = {PATTERNS64(0), PATTERNS64(64), PATTERNS64(128), PATTERNS64(192)};
