/* What the demos need of the core and of its timer (CLINT), which both boards have at the same place. */
#ifndef MACHINE_H
#define MACHINE_H
#include <stdint.h>

#define CLOCK ((volatile uint32_t *)0x0200bff8)
#define ALARM ((volatile uint32_t *)0x02004000)
#define CAUSE_TIMER 0x80000007u
#define CAUSE_CALL 11u
#define STATUS_MIE 8u
#define ENABLE_TIMER 0x80u

/* Good for the first minutes of the clock. */
static inline void set_alarm(uint32_t at)
{
    ALARM[1] = 0xffffffff;
    ALARM[0] = at;
    ALARM[1] = 0;
}

static inline void start_interrupts(void)
{
    __asm__ volatile("csrs mie, %0; csrs mstatus, %1" ::"r"(ENABLE_TIMER), "r"(STATUS_MIE) : "memory");
}

static inline uint32_t disable(void)
{
    uint32_t old;
    __asm__ volatile("csrrci %0, mstatus, 8" : "=r"(old)::"memory");
    return old & STATUS_MIE;
}

static inline void enable(uint32_t old)
{
    __asm__ volatile("csrs mstatus, %0" ::"r"(old) : "memory");
}

static inline void wait_for_interrupt(void)
{
    __asm__ volatile("wfi" ::: "memory");
}

#endif
