/*
 * The words of a firmware that are none of the 59 and concern no register that is kept. The processor executes most of them
 * by itself once they were executed here, until their block leaves; so this stands in flash.
 */
#include "firmware.h"

enum { PMPCFG0 = 0x3a0, PMPCFGS = 16 };
enum { CAUSE_ILLEGAL = 2 };
enum { WORD_WFI = 0x10500073, WORD_EBREAK = 0x00100073, WORD_NOP = 0x00000013 };
enum { OPCODE_FENCE = 0x0f, FUNCT3_FENCE_I = 1 };

/* The same instruction with a0 as its rd and rs1; one that doesn't write has rs1 = x0. */
static uint32_t by_a0(uint32_t word)
{
    uint32_t rs1 = does_write(word) ? 10 : 0;
    return number_of(word) << 20 | rs1 << 15 | operation_of(word) << 12 | 10 << 7 | OPCODE_SYSTEM;
}

/* Whether a CSR instruction writes the settings of PMP, which may lock memory: each time it is looked at. */
static bool is_setting_pmp(uint32_t word)
{
    return number_of(word) - PMPCFG0 < PMPCFGS && does_write(word);
}

/* At an EBREAK mtval is its address or 0, as the processor has it: the exit was one too. */
static uint32_t deliver_word(uint32_t address, uint32_t word)
{
    if (word == WORD_EBREAK)
        return machine_deliver(address, CAUSE_BREAKPOINT, READ("mtval") ? address : 0);
    return machine_deliver(address, CAUSE_ILLEGAL, word);
}

static uint32_t execute_csr(struct frame *registers, uint32_t pc, uint32_t address, uint32_t word)
{
    uint32_t operand = operand_of(registers, word);
    if (is_setting_pmp(word) && pmp_locks_runtime(word, operand))
        firmware_stop(STOP_LOCKED, 0, address);
    struct tried tried = machine_try(by_a0(word), operand);
    if (!tried.is_good)
        return deliver_word(address, word);
    if (rd_of(word))
        registers->x[rd_of(word)] = tried.value;
    if (!is_setting_pmp(word))
        service_replace(pc, word);
    return machine_go_to(address + 4);
}

uint32_t machine_other(struct frame *registers, uint32_t pc, uint32_t address, uint32_t word)
{
    if (is_csr_instruction(word))
        return execute_csr(registers, pc, address, word);
    if (word == WORD_WFI) {
        service_replace(pc, word);
        __asm__ volatile("wfi");
    } else if ((word & 0x707f) == (FUNCT3_FENCE_I << 12 | OPCODE_FENCE)) {
        service_replace(pc, WORD_NOP); /* text in flash doesn't change */
    } else {
        return deliver_word(address, word);
    }
    return machine_go_to(address + 4);
}
