/*
 * Three tasks under a preemptive scheduler, as an RTOS has it. The trap entry keeps a task's registers, mepc and
 * mstatus on the task's stack, and its MRET goes on in another task. A task yields by ECALL, and guards what is shared
 * by mstatus.MIE.
 */
#include "machine.h"
#include "text.h"

#ifndef TICKS
#define TICKS 10000u /* of 100 ns */
#endif
#define TASKS 3u
#define STACK_WORDS 192u
enum { KEPT_MEPC = 31, KEPT_STATUS = 32, KEPT_X31 = 33, KEPT_WORDS = 36 }; /* x1 to x30 stand at their numbers */
#define STATUS_OF_NEW_TASK 0x1880u                                         /* MPP: machine mode; MPIE */

static uint32_t stacks[TASKS - 1][STACK_WORDS] __attribute__((aligned(16)));
static uint32_t *kept[TASKS]; /* of each task that waits what it has kept on its stack */
static volatile uint32_t running, switches, yields, done, shared;
static volatile uint32_t alarm_at, late_most;
static volatile uint32_t results[TASKS - 1];

static void next_alarm(void)
{
    alarm_at = CLOCK[0] + TICKS;
    set_alarm(alarm_at);
}

static void note_lateness(void)
{
    uint32_t late = CLOCK[0] - alarm_at;
    if (late > late_most)
        late_most = late;
}

__attribute__((used)) uint32_t *switch_task(uint32_t *sp, uint32_t cause);
uint32_t *switch_task(uint32_t *sp, uint32_t cause)
{
    if (cause == CAUSE_TIMER) {
        note_lateness();
        next_alarm();
    } else if (cause == CAUSE_CALL) {
        sp[KEPT_MEPC] += 4; /* behind the ECALL */
        yields++;
    } else {
        put_string("a trap of cause ");
        put_number(cause);
        put_string("\n");
    }
    kept[running] = sp;
    running = (running + 1) % TASKS;
    switches++;
    return kept[running];
}

__asm__(".section .text.trap_entry, \"ax\", @progbits\n"
        ".balign 4\n"
        ".globl trap_entry\n"
        "trap_entry:\n"
        "    addi sp, sp, -144\n"
        "    sw x1, 4(sp)\n"
        "    .irp n, 3,4,5,6,7,8,9,10,11,12,13,14,15,16,17,18,19,20,21,22,23,24,25,26,27,28,29,30\n"
        "    sw x\\n, 4*\\n(sp)\n"
        "    .endr\n"
        "    sw x31, 132(sp)\n"
        "    csrr t0, mepc\n"
        "    sw t0, 124(sp)\n"
        "    csrr t0, mstatus\n"
        "    sw t0, 128(sp)\n"
        "    mv a0, sp\n"
        "    csrr a1, mcause\n"
        "    call switch_task\n"
        "    mv sp, a0\n"
        "    lw t0, 124(sp)\n"
        "    csrw mepc, t0\n"
        "    lw t0, 128(sp)\n"
        "    csrw mstatus, t0\n"
        "    lw x1, 4(sp)\n"
        "    .irp n, 3,4,5,6,7,8,9,10,11,12,13,14,15,16,17,18,19,20,21,22,23,24,25,26,27,28,29,30\n"
        "    lw x\\n, 4*\\n(sp)\n"
        "    .endr\n"
        "    lw x31, 132(sp)\n"
        "    addi sp, sp, 144\n"
        "    mret\n"
        "    .text\n");

static void yield(void)
{
    __asm__ volatile("ecall" ::: "memory");
}

static void count_up(void)
{
    uint32_t old = disable(), seen = shared;
    for (volatile int k = 0; k < 10; k++)
        ;
    shared = seen + 1;
    enable(old);
}

static uint32_t crc_step(uint32_t value, uint8_t byte)
{
    value ^= byte;
    for (int k = 0; k < 8; k++)
        value = value >> 1 ^ (value & 1 ? 0xedb88320 : 0);
    return value;
}

static uint32_t fibonacci(uint32_t n)
{
    return n < 2 ? n : fibonacci(n - 1) + fibonacci(n - 2);
}

static _Noreturn void end_task(uint32_t task, uint32_t result)
{
    results[task] = result;
    done++;
    for (;;)
        yield();
}

static void task_crc(void)
{
    uint32_t value = 0xffffffff;
    for (uint32_t k = 0; k < 3000; k++) {
        value = crc_step(value, (uint8_t)(k * 7));
        if (k % 100 == 0)
            count_up();
        if (k % 500 == 0)
            yield();
    }
    end_task(0, ~value);
}

static void task_fibonacci(void)
{
    uint32_t sum = 0;
    for (uint32_t n = 0; n < 16; n++) {
        sum = sum * 31 + fibonacci(n);
        count_up();
    }
    end_task(1, sum);
}

static void make_task(uint32_t task, void (*start)(void))
{
    uint32_t *sp = stacks[task] + STACK_WORDS - KEPT_WORDS;
    sp[KEPT_MEPC] = (uint32_t)start;
    sp[KEPT_STATUS] = STATUS_OF_NEW_TASK;
    __asm__ volatile("sw gp, 12(%0)" ::"r"(sp) : "memory");
    kept[task] = sp;
}

int main(void)
{
    uint32_t counted = 0;
    uart_start();
    make_task(0, task_crc);
    make_task(1, task_fibonacci);
    running = TASKS - 1; /* this is the third */
    next_alarm();
    start_interrupts();
    while (done < TASKS - 1) {
        uint32_t cycles;
        __asm__ volatile("csrr %0, mcycle" : "=r"(cycles));
        counted += cycles != 0;
        wait_for_interrupt();
    }
    (void)disable();
    put_string("crc ");
    put_number(results[0]);
    put_string("\nfibonacci ");
    put_number(results[1]);
    put_string("\nshared ");
    put_number(shared);
    put_string(switches > yields + 2 && counted ? "\npreempted\n" : "\nnot preempted\n");
    put_string("late: at most ");
    put_number(late_most);
    put_string(" ticks of the clock\n");
    return 0;
}
