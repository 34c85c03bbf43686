/* What the C sources here use of <sys/mman.h>, for x86-64 Linux. */
#pragma once
#include <stddef.h>
enum { PROT_NONE = 0, PROT_READ = 1, PROT_WRITE = 2, MAP_PRIVATE = 2, MAP_ANONYMOUS = 32 };
#define MAP_FAILED ((void *)-1)
void *mmap(void *at, size_t size, int protection, int flags, int file, long offset);
int mprotect(void *at, size_t size, int protection);
