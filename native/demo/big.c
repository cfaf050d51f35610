/* A firmware with a C library: printf with floats over the UART, malloc, qsort, a timer's interrupt, sleep. */
#include <stdio.h>
#include <stdlib.h>
#include <string.h>

#include "machine.h"
#include "text.h"

#ifndef TICKS
#define TICKS 10000u /* of 100 ns */
#endif
#ifdef DIRECT
#define HANDLER __attribute__((section(".text.native"), interrupt, aligned(4), used))
#else
#define HANDLER __attribute__((interrupt, aligned(4), used))
#endif
#define NUMBERS 64u

static int put(char byte, FILE *file)
{
    (void)file;
    uart_put(byte);
    return (unsigned char)byte;
}

static FILE uart = FDEV_SETUP_STREAM(put, NULL, NULL, _FDEV_SETUP_WRITE);
FILE *const stdin = &uart, *const stdout = &uart, *const stderr = &uart;

static char heap[8192], *top = heap;

void *sbrk(ptrdiff_t count);
void *sbrk(ptrdiff_t count)
{
    char *at = top;
    if (heap + sizeof heap - top < count)
        return (void *)-1;
    top += count;
    return at;
}

static volatile uint32_t ticks, late_most, alarm_at;

HANDLER void trap_entry(void);
void trap_entry(void)
{
    uint32_t now = CLOCK[0], late = now - alarm_at;
    if (late > late_most)
        late_most = late;
    alarm_at = now + TICKS;
    set_alarm(alarm_at);
    ticks++;
}

static int ascending(const void *a, const void *b)
{
    uint32_t x = *(const uint32_t *)a, y = *(const uint32_t *)b;
    return x < y ? -1 : x > y;
}

static uint32_t seed = 1;

static void work(int round)
{
    uint32_t *window = malloc(NUMBERS * sizeof *window);
    for (uint32_t k = 0; k < NUMBERS; k++)
        window[k] = (seed = seed * 1103515245 + 12345) >> 20;
    qsort(window, NUMBERS, sizeof *window, ascending);
    printf("%2d: median %u, mean of three %.3f\n", round, (unsigned)window[32],
           (window[31] + window[32] + window[33]) / 3.0);
    free(window);
}

static void wait_for_tick(void)
{
    uint32_t old = disable(), first = ticks;
    enable(old);
    while (ticks == first)
        wait_for_interrupt();
}

int main(void)
{
    uart_start();
    alarm_at = CLOCK[0] + TICKS;
    set_alarm(alarm_at);
    start_interrupts();
    for (int round = 0; round < 12; round++) {
        work(round);
        wait_for_tick();
    }
    printf("late: at most %u ticks of the clock\n", (unsigned)late_most);
    return 0;
}
