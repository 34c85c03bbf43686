/* Checks the case file on standard input and prints its listing, as the program `bounds0` does: without interruptions. README.md says how to link it. */
#include <bolgverk.h>
#include <stdio.h>

/* One byte more than a file may have: it shows that the input is longer. */
static uint8_t file[65537];

int main(void)
{
    uint64_t numbers[BOLGVERK_NUMBERS] = {0}, place, second;
    size_t length = fread(file, 1, sizeof file, stdin);
    if (length > 65536)
        return printf("refused 28 0 0\n") < 0;
    uint8_t refused = bolgverk_check(file, length, 0, numbers, BOLGVERK_NUMBERS, &place, &second);
    if (refused)
        return printf("refused %u %lu %lu\n", refused, place, second) < 0;
    unsigned sets = file[length - 6], facts = file[length - 10] + 256u * file[length - 9];
    printf("total %lu\n", numbers[0]);
    for (unsigned q = 0; q < sets; q++)
        printf("set %u %lu\n", q, numbers[1 + q]);
    for (unsigned i = 0; i < facts; i++)
        printf("fact %u %lu\n", i, numbers[65 + i]);
    return 0;
}
