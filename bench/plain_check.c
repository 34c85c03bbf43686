/* The check in plain C: the lent list's length first, then the file. */
#include "plain.h"
#include "plain_bounds.h"

uint8_t plain_check(const uint8_t *file, size_t file_length, uint16_t interruptions, uint64_t *numbers, size_t numbers_length, uint64_t *place,
                    uint64_t *second)
{
    struct check c;
    *place = *second = 0;
    if (numbers_length < NUMBERS)
        return 20;
    unsigned number = check_file(&c, file, file_length, interruptions);
    if (number == 0)
        memcpy(numbers, c.numbers, sizeof c.numbers);
    *place = c.g.place;
    *second = c.second;
    return (uint8_t)number;
}
