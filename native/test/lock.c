/* A firmware that adds by LR.W and SC.W; with ALONE its LR.W has no SC.W near. */
#include "machine.h"
#include "text.h"

__attribute__((aligned(4))) void trap_entry(void);
void trap_entry(void)
{
    for (;;)
        ;
}

static uint32_t number;

/* Tells how many stores failed. */
__attribute__((noinline)) uint32_t add_locked(uint32_t *at);
uint32_t add_locked(uint32_t *at)
{
    uint32_t failed = 0, value, has_failed;
    __asm__ volatile("1: lr.w %1, (%3)\n"
                     "   addi %1, %1, 1\n"
#ifdef ALONE
                     "   .rept 15\n"
                     "   nop\n"
                     "   .endr\n"
#endif
                     "   mv t0, %1\n"
                     "   mv t0, %1\n"
                     "   sc.w %2, t0, (%3)\n"
                     "   add %0, %0, %2\n"
                     "   bnez %2, 1b\n"
                     : "+r"(failed), "=&r"(value), "=&r"(has_failed)
                     : "r"(at)
                     : "t0", "memory");
    return failed;
}

int main(void)
{
    uint32_t failed = 0;
    uart_start();
    for (int k = 0; k < 20; k++)
        failed += add_locked(&number);
    put_number(number);
    put_string(failed ? " with failures\n" : "\n");
    return 0;
}
