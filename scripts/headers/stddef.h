/* What the C sources here use of C's <stddef.h>, for x86-64 Linux. */
#pragma once
typedef unsigned long size_t;
#define NULL ((void *)0)
