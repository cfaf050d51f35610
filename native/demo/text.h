/* Text and numbers for the UART. */
#ifndef TEXT_H
#define TEXT_H
#include "board.h"

static inline void put_string(const char *text)
{
    while (*text)
        uart_put(*text++);
}

static inline void put_number(uint32_t value)
{
    char digits[10];
    uint32_t count = 0;
    do
        digits[count++] = (char)('0' + value % 10);
    while (value /= 10);
    while (count)
        uart_put(digits[--count]);
}

#endif
