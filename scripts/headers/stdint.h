/* What the C sources here use of C's <stdint.h>, for x86-64 Linux. */
#pragma once
typedef unsigned char uint8_t;
typedef unsigned short uint16_t;
typedef unsigned int uint32_t;
typedef unsigned long uint64_t;
