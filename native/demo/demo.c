/*
 * A firmware: a UART by polling, a timer's interrupt, sorting and a CRC between.
 *
 * With DIRECT the handler stands in .text.native, where interrupts execute it in flash. MODEL leaves out what `swic
 * cached` doesn't run, so that counts can be compared: `prepare` is then called in flash before the program begins.
 */
#include "machine.h"
#include "text.h"

#ifndef TICKS
#define TICKS 1000u /* of 100 ns */
#endif
#define ROUNDS 20u
#ifdef DIRECT
#define HANDLER __attribute__((section(".text.native"), interrupt, aligned(4), used))
#else
#define HANDLER __attribute__((interrupt, aligned(4), used))
#endif

static volatile uint32_t ticks, sum_of_ticks = 7, late_most;
static volatile uint32_t alarm_at;

HANDLER void trap_entry(void);
void trap_entry(void)
{
    uint32_t now = CLOCK[0], late = now - alarm_at;
    if (late > late_most)
        late_most = late;
    alarm_at = now + TICKS;
    set_alarm(alarm_at);
    ticks++;
    sum_of_ticks = sum_of_ticks * 31 + ticks;
}

static uint32_t seed = 12345; /* its first value comes out of flash */
static uint32_t numbers[64];

static uint32_t next(void)
{
    return seed = seed * 1103515245 + 12345;
}

static uint32_t crc(const uint8_t *from, uint32_t count)
{
    uint32_t value = 0xffffffff;
    while (count--) {
        value ^= *from++;
        for (int k = 0; k < 8; k++)
            value = value >> 1 ^ (value & 1 ? 0xedb88320 : 0);
    }
    return ~value;
}

static int less(uint32_t a, uint32_t b)
{
    return a < b;
}

static int more(uint32_t a, uint32_t b)
{
    return a > b;
}

static int (*const orders[])(uint32_t, uint32_t) = {less, more};

static int divide(uint32_t *at, int *from, int *to, int (*before)(uint32_t, uint32_t))
{
    uint32_t pivot = at[(*from + *to) / 2];
    while (*from <= *to) {
        while (before(at[*from], pivot))
            ++*from;
        while (before(pivot, at[*to]))
            --*to;
        if (*from <= *to) {
            uint32_t swapped = at[*from];
            at[(*from)++] = at[*to];
            at[(*to)--] = swapped;
        }
    }
    return *to;
}

static void sort(uint32_t *at, int low, int high, int (*before)(uint32_t, uint32_t))
{
    while (low < high) {
        int from = low, to = high;
        sort(at, low, divide(at, &from, &to, before), before);
        low = from;
    }
}

static void work(uint32_t round)
{
    for (uint32_t k = 0; k < 64; k++)
        numbers[k] = next();
    sort(numbers, 0, 63, orders[round & 1]);
    put_number(round);
    put_string(" ");
    put_number(crc((const uint8_t *)numbers, sizeof numbers));
    put_string("\n");
}

#ifdef MODEL
__asm__(".section .text.native, \"ax\"\n"
        ".globl native_start\n"
        "native_start: .option push\n"
        ".option norelax\n"
        "la gp, __global_pointer$\n"
        ".option pop\n"
        "tail prepare\n"
        ".text\n");

/* Called in flash before the program begins: data, and the timer. */
__attribute__((section(".text.native"), used)) void prepare(void);
void prepare(void)
{
    extern uint32_t __data[], __data_end[], __data_in_flash[];
    for (uint32_t k = 0; __data + k < __data_end; k++)
        __data[k] = __data_in_flash[k];
    alarm_at = CLOCK[0] + TICKS;
    set_alarm(alarm_at);
    __asm__ volatile("csrs mie, %0; csrs mstatus, %0" ::"r"(ENABLE_TIMER)); /* MPIE has the timer's bit: MRET enables */
}

int main(void)
{
    uart_start();
    for (uint32_t round = 0; round < ROUNDS; round++)
        work(round);
    put_string("end\n");
    return 0;
}
#else
static void wait_for_tick(void)
{
    uint32_t old = disable(), first = ticks;
    enable(old);
    while (ticks == first)
        wait_for_interrupt();
}

int main(void)
{
    uint32_t sum = 7;
    uart_start();
    put_string("begin\n");
    alarm_at = CLOCK[0] + TICKS;
    set_alarm(alarm_at);
    start_interrupts();
    for (uint32_t round = 0; round < ROUNDS; round++) {
        work(round);
        wait_for_tick();
    }
    (void)disable();
    for (uint32_t k = 1; k <= ticks; k++)
        sum = sum * 31 + k;
    put_string(sum == sum_of_ticks && ticks >= ROUNDS ? "each tick was served\n" : "ticks are lost\n");
    put_string("late: at most ");
    put_number(late_most);
    put_string(" ticks of the clock\n");
    return 0;
}
#endif
