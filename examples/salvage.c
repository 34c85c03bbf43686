/* Salvages the case file on standard input: says why the check refuses it, which facts are dropped and for what, and what the check says of the rest.
 * README.md says how to link it. */
#include <bolgverk.h>
#include <stdio.h>

enum { FACTS = 256 };

static uint8_t file[65536], rest[65536];

static void check_file(const uint8_t *bytes, size_t length)
{
    uint64_t numbers[BOLGVERK_NUMBERS], place, second;
    uint8_t refused = bolgverk_check(bytes, length, 0, numbers, BOLGVERK_NUMBERS, &place, &second);
    if (refused)
        printf("check: refused %u %lu %lu\n", refused, place, second);
    else
        printf("check: total %lu\n", numbers[0]);
}

int main(void)
{
    /* What is left has no more bytes than the file, and no file has more than 256 facts. */
    uint64_t dropped[3 * FACTS], length = 0, count = 0, place;
    size_t file_length = fread(file, 1, sizeof file, stdin);
    check_file(file, file_length);
    uint8_t refused = bolgverk_salvage(file, file_length, rest, file_length, dropped, 3 * FACTS, &length, &count, &place);
    if (refused)
        return printf("salvage: refused %u %lu\n", refused, place) < 0;
    printf("salvage: %lu of %lu bytes, %lu facts dropped\n", length, file_length, count);
    for (uint64_t i = 0; i < count; i++)
        printf("fact %lu: %lu %lu\n", dropped[3 * i + 1], dropped[3 * i], dropped[3 * i + 2]);
    check_file(rest, length);
    return 0;
}
