/*
 * number.h: decimal numbers among a program's arguments.
 */
#ifndef NUMBER_H
#define NUMBER_H

#include <stdint.h>

/* Reads a decimal number of at most 32 bits; answers 0 if the text is none. */
static int read_number(const char *text, uint32_t *number)
{
    uint64_t value = 0;
    if (*text == '\0')
        return 0;
    for (; *text != '\0'; text++) {
        if (*text < '0' || *text > '9')
            return 0;
        value = 10 * value + (uint64_t)(*text - '0');
        if (value > UINT32_MAX)
            return 0;
    }
    *number = (uint32_t)value;
    return 1;
}

#endif
