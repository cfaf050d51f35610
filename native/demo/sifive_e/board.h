/* An FE310: UART0. */
#ifndef BOARD_H
#define BOARD_H
#include <stdint.h>

#define UART ((volatile uint32_t *)0x10013000)

static inline void uart_start(void)
{
    UART[2] = 1; /* txctrl: transmit */
}

static inline void uart_put(char byte)
{
    while (UART[0] >> 31) /* until there is room */
        ;
    UART[0] = (uint8_t)byte;
}

#endif
