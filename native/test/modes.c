/* What stops the runtime with a reason: USER leaves machine mode, LOCKED locks the board's memory of the runtime by PMP.
 * Without either a locked entry elsewhere, and MRET to machine mode, do what they do out of flash. */
#include "machine.h"
#include "text.h"

#define PREVIOUS_MODE 0x1800u
#define LOCK_POWER_OF_2 0x98u
#define READ_WRITE 3u

__attribute__((aligned(4))) void trap_entry(void);
void trap_entry(void)
{
    put_string("trap\n");
    for (;;)
        ;
}

/* The entry's first 4 bytes, and the size, a power of 2 from 8 on. */
static void lock(uint32_t begin, uint32_t bytes)
{
    __asm__ volatile("csrw pmpaddr0, %0" ::"r"(begin / 4 | (bytes / 8 - 1)));
    __asm__ volatile("csrs pmpcfg0, %0" ::"r"(LOCK_POWER_OF_2 | READ_WRITE));
}

static void return_to(uint32_t clear)
{
    __asm__ volatile("csrs mstatus, %0\n csrc mstatus, %1\n la t0, 1f\n csrw mepc, t0\n mret\n 1:" ::"r"(PREVIOUS_MODE), "r"(clear) : "t0");
}

int main(void)
{
    uart_start();
    return_to(0);
    put_string("machine mode\n");
#ifdef LOCKED
    lock(RUNTIME, 4096);
#else
    lock(0x90000000, 4096);
#endif
    put_string("locked\n");
#ifdef USER
    return_to(PREVIOUS_MODE);
#endif
    return 0;
}
