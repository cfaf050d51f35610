/*
 * What a firmware sees of its machine mode, printed: has to be the same out of flash and in the cache. Software
 * interrupts are raised at each place of a loop with every kind of rendering, nested four deep, held, and vectored.
 */
#include "machine.h"
#include "text.h"

#define SOFTWARE (*(volatile uint32_t *)0x02000000)
#define ENABLE_SOFTWARE 8u
#define FETCH_ACCESS 1u
#define PREVIOUS_MODE 0x1800u
#define STATUS_SEEN (PREVIOUS_MODE | 0x88u)

#define READ(csr)                                                                                                      \
    __extension__({                                                                                                    \
        uint32_t value_;                                                                                               \
        __asm__ volatile("csrr %0, " csr : "=r"(value_));                                                              \
        value_;                                                                                                        \
    })
#define WRITE(csr, value) __asm__ volatile("csrw " csr ", %0" ::"r"(value) : "memory")

extern char trap_entry[], vectors[];
static volatile uint32_t cause, value, status, depth, deepest, soft;

/* What trap_entry keeps: mepc and mstatus, and the registers that C may change. */
struct kept {
    uint32_t epc, status, registers[16];
};

__asm__(".text\n"
        ".balign 4\n"
        ".globl trap_entry\n"
        "trap_entry:\n"
        "    csrrw sp, mscratch, sp\n"
        "    csrrw sp, mscratch, sp\n"
        "    addi sp, sp, -80\n"
        "    .irp n, 5,6,7,10,11,12,13,14,15,16,17\n"
        "    sw x\\n, 4*(\\n-3)(sp)\n"
        "    .endr\n"
        "    sw x1, 60(sp)\n"
        "    sw x28, 64(sp)\n"
        "    sw x29, 68(sp)\n"
        "    sw x30, 72(sp)\n"
        "    sw x31, 76(sp)\n"
        "    csrr t0, mepc\n"
        "    sw t0, 0(sp)\n"
        "    csrr t0, mstatus\n"
        "    sw t0, 4(sp)\n"
        "    mv a0, sp\n"
        "    call handle\n"
        "    lw t0, 0(sp)\n"
        "    csrw mepc, t0\n"
        "    lw t0, 4(sp)\n"
        "    csrw mstatus, t0\n"
        "    .irp n, 5,6,7,10,11,12,13,14,15,16,17\n"
        "    lw x\\n, 4*(\\n-3)(sp)\n"
        "    .endr\n"
        "    lw x1, 60(sp)\n"
        "    lw x28, 64(sp)\n"
        "    lw x29, 68(sp)\n"
        "    lw x30, 72(sp)\n"
        "    lw x31, 76(sp)\n"
        "    addi sp, sp, 80\n"
        "    mret\n"
        ".balign 256\n"
        "vectors:\n"
        "    .rept 3\n"
        "    j trap_entry\n"
        "    .endr\n"
        "    j vector_of_software\n"
        "    .rept 9\n"
        "    j trap_entry\n"
        "    .endr\n"
        "vector_of_software:\n"
        "    addi sp, sp, -16\n"
        "    sw t0, 0(sp)\n"
        "    sw t1, 4(sp)\n"
        "    li t0, 0x02000000\n"
        "    sw zero, 0(t0)\n"
        "    la t0, soft\n"
        "    lw t1, 0(t0)\n"
        "    addi t1, t1, 100\n"
        "    sw t1, 0(t0)\n"
        "    lw t0, 0(sp)\n"
        "    lw t1, 4(sp)\n"
        "    addi sp, sp, 16\n"
        "    mret\n");

static void handle_interrupt(void)
{
    SOFTWARE = 0;
    soft++;
    depth++;
    if (depth > deepest)
        deepest = depth;
    if (depth < 4) { /* nested: the same once more */
        SOFTWARE = 1;
        __asm__ volatile("csrsi mstatus, 8\n nop\n nop\n csrci mstatus, 8" ::: "memory");
    }
    depth--;
}

__attribute__((used)) void handle(struct kept *kept);
void handle(struct kept *kept)
{
    cause = READ("mcause");
    status = READ("mstatus") & STATUS_SEEN;
    if (cause >> 31) {
        handle_interrupt();
        return;
    }
    value = READ("mtval");
    if (cause == FETCH_ACCESS)
        kept->epc = kept->registers[13]; /* ra: behind the call */
    else
        kept->epc += 4;
}

static void put_hex(uint32_t number)
{
    for (int k = 28; k >= 0; k -= 4)
        uart_put("0123456789abcdef"[number >> k & 15]);
    uart_put(' ');
}

static void line(const char *name, uint32_t first, uint32_t second)
{
    put_string(name);
    uart_put(' ');
    put_hex(first);
    put_hex(second);
    uart_put('\n');
}

static void pause(void)
{
    for (volatile int k = 0; k < 3; k++)
        ;
}

static void registers(void)
{
    uint32_t first, second;
    WRITE("mscratch", 0x12345678);
    __asm__ volatile("csrrs %0, mscratch, %1" : "=r"(first) : "r"(0xf0));
    __asm__ volatile("csrrci %0, mscratch, 8" : "=r"(second));
    line("mscratch", first, second);
    __asm__ volatile("csrrwi %0, mscratch, 21" : "=r"(first));
    __asm__ volatile("csrrw %0, mscratch, zero" : "=r"(second));
    line("mscratch", first, second);
    line("mtvec", READ("mtvec") == (uint32_t)trap_entry, 0);
    WRITE("mepc", 0x1000);
    line("mepc", READ("mepc"), 0);
    WRITE("mcause", 5);
    line("mcause", READ("mcause"), 0);
    line("mstatus", READ("mstatus") & STATUS_SEEN, 0);
    __asm__ volatile("csrsi mstatus, 8");
    line("mstatus", READ("mstatus") & STATUS_SEEN, 0);
    for (uint32_t mode = 0; mode < 4; mode++) { /* of which the processor may lack some */
        __asm__ volatile("csrc mstatus, %0; csrs mstatus, %1" ::"r"(PREVIOUS_MODE), "r"(mode << 11));
        line("mode", mode, READ("mstatus") & STATUS_SEEN);
    }
    first = READ("mcycle");
    line("mcycle", READ("mcycle") > first, 0);
    line("misa", READ("misa"), READ("mhartid"));
}

static void exceptions(void)
{
    __asm__ volatile("ecall");
    line("ecall", cause, status);
    __asm__ volatile("ebreak");
    line("ebreak", cause, status);
    line("ebreak", value, READ("mstatus") & STATUS_SEEN);
    __asm__ volatile(".word 0xffffffff");
    line("illegal", cause, value);
    __asm__ volatile("csrr t0, 0x7c0" ::: "t0");
    line("no such register", cause, status);
    __asm__ volatile("csrw 0xc00, zero");
    line("one to read", cause, status);
    __asm__ volatile("lw t0, 0(%0)" ::"r"(0xf0000000) : "t0");
    line("load", cause, value);
    __asm__ volatile("sw zero, 0(%0)" ::"r"(0xf0000004));
    line("store", cause, value);
    __asm__ volatile("fence.i");
    __asm__ volatile("fence.i");
}

void missing(void) __attribute__((weak));

/* A call of a weak function that nobody defines is a JALR over x0, which is 0 whatever a CSR held before. */
static void nowhere(void)
{
    WRITE("mtvec", trap_entry);
    missing();
    line("call of nowhere", cause, value);
    WRITE("mscratch", 0x1004);
    __asm__ volatile("csrw mscratch, zero\n la ra, 1f\n jalr t0, -8(zero)\n 1:" ::: "t0", "ra");
    line("jump to nowhere", cause, value);
    __asm__ volatile("la ra, 1f + 1\n ret\n 1:" ::: "ra"); /* the lowest bit is dropped */
}

/* One word each, executed with MIE alone, nothing, and more than that, in turns. */
__attribute__((noinline)) static void set(uint32_t bits)
{
    __asm__ volatile("csrs mstatus, %0\n nop" ::"r"(bits));
}

__attribute__((noinline)) static void clear(uint32_t bits)
{
    __asm__ volatile("csrc mstatus, %0\n nop" ::"r"(bits));
}

static void status_by_register(void)
{
    static const uint32_t bits[] = {8, 0, 8, 0x80, 0x1888, 8, 0x1880, 0, 0x88, 8};
    for (uint32_t k = 0; k < sizeof bits / sizeof bits[0]; k++) {
        clear(bits[k]);
        uint32_t cleared = READ("mstatus") & STATUS_SEEN;
        set(bits[k]);
        line("status", cleared, READ("mstatus") & STATUS_SEEN);
    }
    for (uint32_t k = 0; k < 500; k++) {
        clear(8);
        set(8);
    }
    line("status", READ("mstatus") & STATUS_SEEN, 0);
}

static void interrupts(void)
{
    __asm__ volatile("csrs mie, %0" ::"r"(ENABLE_SOFTWARE));
    line("mie", READ("mie"), READ("mip"));
    SOFTWARE = 1;
    pause();
    line("nested", soft, deepest);
    __asm__ volatile("csrci mstatus, 8");
    SOFTWARE = 1;
    pause();
    line("held", soft, READ("mip"));
    __asm__ volatile("csrsi mstatus, 8");
    pause();
    line("let", soft, READ("mip"));
    WRITE("mtvec", vectors + 1);
    for (int k = 0; k < 5; k++) {
        SOFTWARE = 1;
        pause();
    }
    line("vectored", soft, READ("mtvec") == (uint32_t)vectors + 1);
    __asm__ volatile("ecall");
    line("ecall", cause, status);
    __asm__ volatile("csrci mstatus, 8");
    SOFTWARE = 1;
    wait_for_interrupt();
    line("wfi", soft, READ("mip") & 8);
    __asm__ volatile("csrsi mstatus, 8");
}

/* An interrupt of the loop's first instruction is taken at each place of the loop, by what the cache does between. */
static void at_each_place(void)
{
    uint32_t sum = 0;
    for (uint32_t k = 0; k < 300; k++)
        __asm__ volatile("   sw %1, 0(%2)\n"
                         "   auipc t1, 0\n"
                         "   sub t1, t1, t1\n"
                         "   add %0, %0, %3\n"
                         "   beqz t1, 2f\n"
                         "   addi %0, %0, 1\n"
                         "2: xor %0, %0, %3\n"
                         "   bnez %3, 3f\n"
                         "   addi %0, %0, 2\n"
                         "3: jal t0, 4f\n"
                         "   addi %0, %0, 5\n"
                         "   j 5f\n"
                         "4: addi %0, %0, 7\n"
                         "   jr t0\n"
                         "5:"
                         : "+r"(sum)
                         : "r"(k & 1), "r"(&SOFTWARE), "r"(k)
                         : "t0", "t1", "memory");
    line("sum", sum, soft);
}

int main(void)
{
    uart_start();
    registers();
    exceptions();
    nowhere();
    status_by_register();
    interrupts();
    at_each_place();
    return 0;
}
