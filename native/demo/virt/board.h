/* qemu's "virt": a 16550 UART. */
#ifndef BOARD_H
#define BOARD_H
#include <stdint.h>

#define UART ((volatile uint8_t *)0x10000000)

static inline void uart_start(void)
{
}

static inline void uart_put(char byte)
{
    while (!(UART[5] & 0x20)) /* until there is room */
        ;
    UART[0] = (uint8_t)byte;
}

#endif
