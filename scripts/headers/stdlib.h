/* What the C sources here use of C's <stdlib.h>. */
#pragma once
#include <stddef.h>
void *malloc(size_t size);
unsigned long strtoul(const char *restrict text, char **restrict end, int base);
int atoi(const char *text);
void exit(int status) __attribute__((noreturn));
