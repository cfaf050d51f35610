/* The longest service: SITES jumps to one block, each linked, and then that block has to leave; under a timer's
 * interrupt. */
#include "machine.h"
#include "text.h"

#ifndef TICKS
#define TICKS 200u
#endif
#ifdef DIRECT
#define HANDLER __attribute__((section(".text.native"), interrupt, aligned(4), used))
#else
#define HANDLER __attribute__((interrupt, aligned(4), used))
#endif
#define STRING_(x) #x
#define STRING(x) STRING_(x)

static volatile uint32_t ticks, late_most, alarm_at;

HANDLER void trap_entry(void);
void trap_entry(void)
{
    uint32_t now = CLOCK[0], late = now - alarm_at;
    if (late > late_most)
        late_most = late;
    alarm_at = now + TICKS + ticks % 97;
    set_alarm(alarm_at);
    ticks++;
}

__asm__(".text\n"
        ".globl storm\n"
        "storm: la t0, first\n"
        "       j first\n"
        "again: addi t0, t0, 4\n"
        "       jr t0\n"
        "first:\n"
        "       .rept " STRING(SITES) "\n"
                                      "       j again\n"
                                      "       .endr\n"
                                      "       ret\n");
void storm(void);

int main(void)
{
    uart_start();
    alarm_at = CLOCK[0] + TICKS;
    set_alarm(alarm_at);
    start_interrupts();
    for (int k = 0; k < 12; k++)
        storm();
    (void)disable();
    put_string(ticks ? "served\n" : "not served\n");
    put_string("late: at most ");
    put_number(late_most);
    put_string(" ticks of the clock\n");
    return 0;
}
