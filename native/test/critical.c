/*
 * Three tasks and a queue under a preemptive tick, as an RTOS has them. Critical sections, which may stand in each other, are entered by
 * csrc and left by csrs of mstatus, with the bit in a register.
 */
#include "machine.h"
#include "text.h"

#define TICKS 5000u /* of 100 ns */
#define ITEMS 1500u
#define PLACES 8u
#define TASKS 3u
#define STACK_WORDS 192u
#define STATUS_OF_NEW_TASK 0x1880u /* MPP: machine mode; MPIE */

/* What the trap entry keeps on a task's stack: the registers at their numbers, mepc in place of x0, mstatus in place of sp. */
enum { KEPT_MEPC = 0, KEPT_STATUS = 2, KEPT_WORDS = 32 };

static uint32_t stacks[TASKS - 1][STACK_WORDS] __attribute__((aligned(16)));
static uint32_t *kept[TASKS];
static volatile uint32_t running, switches, nesting, sent, received, counted, done;
static volatile uint32_t queue[PLACES];
static uint32_t alarm_at;

__asm__(".balign 4\n"
        ".globl trap_entry\n"
        "trap_entry:\n"
        "    addi sp, sp, -128\n"
        "    .irp n, 1,3,4,5,6,7,8,9,10,11,12,13,14,15,16,17,18,19,20,21,22,23,24,25,26,27,28,29,30,31\n"
        "    sw x\\n, 4*\\n(sp)\n"
        "    .endr\n"
        "    csrr t0, mepc\n"
        "    sw t0, 0(sp)\n"
        "    csrr t0, mstatus\n"
        "    sw t0, 8(sp)\n"
        "    mv a0, sp\n"
        "    csrr a1, mcause\n"
        "    call switch_task\n"
        "    mv sp, a0\n"
        "    lw t0, 0(sp)\n"
        "    csrw mepc, t0\n"
        "    lw t0, 8(sp)\n"
        "    csrw mstatus, t0\n"
        "    .irp n, 1,3,4,5,6,7,8,9,10,11,12,13,14,15,16,17,18,19,20,21,22,23,24,25,26,27,28,29,30,31\n"
        "    lw x\\n, 4*\\n(sp)\n"
        "    .endr\n"
        "    addi sp, sp, 128\n"
        "    mret\n");

static void next_alarm(void)
{
    alarm_at = CLOCK[0] + TICKS;
    set_alarm(alarm_at);
}

__attribute__((used)) uint32_t *switch_task(uint32_t *sp, uint32_t cause);
uint32_t *switch_task(uint32_t *sp, uint32_t cause)
{
    if (cause == CAUSE_TIMER)
        next_alarm();
    else
        sp[KEPT_MEPC] += 4; /* behind the ECALL of yield */
    kept[running] = sp;
    running = (running + 1) % TASKS;
    switches++;
    return kept[running];
}

static void yield(void)
{
    __asm__ volatile("ecall" ::: "memory");
}

static void enter_critical(void)
{
    __asm__ volatile("csrc mstatus, %0" ::"r"(STATUS_MIE) : "memory");
    nesting++;
}

static void leave_critical(void)
{
    if (--nesting == 0)
        __asm__ volatile("csrs mstatus, %0" ::"r"(STATUS_MIE) : "memory");
}

static uint32_t held(void)
{
    enter_critical();
    uint32_t count = sent - received;
    leave_critical();
    return count;
}

static int send(uint32_t item)
{
    enter_critical();
    int is_free = held() < PLACES;
    if (is_free)
        queue[sent++ % PLACES] = item;
    leave_critical();
    return is_free;
}

static int receive(uint32_t *item)
{
    enter_critical();
    int is_there = held() > 0;
    if (is_there)
        *item = queue[received++ % PLACES];
    leave_critical();
    return is_there;
}

static void count_up(void)
{
    enter_critical();
    counted++;
    leave_critical();
}

static _Noreturn void end_task(void)
{
    enter_critical();
    done++;
    leave_critical();
    for (;;)
        yield();
}

static void task_send(void)
{
    for (uint32_t k = 0; k < ITEMS; k++) {
        while (!send(k * k))
            yield();
        count_up();
    }
    end_task();
}

static void task_count(void)
{
    for (uint32_t k = 0; k < ITEMS; k++) {
        count_up();
        if (k % 100 == 99)
            yield();
    }
    end_task();
}

static void make_task(uint32_t task, void (*start)(void))
{
    uint32_t *sp = stacks[task] + STACK_WORDS - KEPT_WORDS;
    sp[KEPT_MEPC] = (uint32_t)start;
    sp[KEPT_STATUS] = STATUS_OF_NEW_TASK;
    __asm__ volatile("sw gp, 12(%0)" ::"r"(sp) : "memory");
    kept[task] = sp;
}

int main(void)
{
    uint32_t sum = 0, item;
    uart_start();
    make_task(0, task_send);
    make_task(1, task_count);
    running = TASKS - 1; /* this is the third */
    next_alarm();
    start_interrupts();
    for (uint32_t k = 0; k < ITEMS; k++) {
        while (!receive(&item))
            yield();
        sum = sum * 31 + item;
    }
    while (done < TASKS - 1)
        yield();
    enter_critical();
    put_string("sum ");
    put_number(sum);
    put_string("\ncounted ");
    put_number(counted);
    put_string(nesting == 1 && switches > TASKS ? "\nswitched\n" : "\nnot switched\n");
    return 0;
}
