/*
 * The machine mode that a firmware sees while it runs in the cache. Its trap registers are kept here, since the
 * processor's are the runtime's; all other CSRs are the processor's own. An instruction of Zicsr, MRET, WFI or FENCE.I
 * stands in a block as an exit for its text word (it is none of RV32IMA's 59), and is executed here, or by other.c where it
 * concerns none of these registers.
 *
 * While the runtime has control, the processor's mstatus.MPIE is the firmware's MIE.
 */
#include <stddef.h>
#include "firmware.h"

enum { MSTATUS = 0x300, MTVEC = 0x305, MSCRATCH = 0x340 };
enum { STATUS_MIE = 1 << 3, STATUS_MPIE = 1 << 7, STATUS_MPP = 3 << 11, STATUS_MPRV = 1 << 17 };
enum { CAUSE_FETCH_MISALIGNED = 0, CAUSE_FETCH_ACCESS = 1 };
enum { WORD_MRET = 0x30200073 };
enum { SOFTWARE_INTERRUPT = 3, TIMER_INTERRUPT = 7, EXTERNAL_INTERRUPT = 11 };
#define CAUSE_IS_INTERRUPT 0x80000000u

/* Not inlined, for the room that it would take in fast memory. */
#define SHARED __attribute__((noinline))

/* mscratch to mtval, whose numbers follow each other. */
enum { SCRATCH, EPC, CAUSE, TVAL, KEPT };

static struct {
    uint32_t tvec, mpie, mpp;
    uint32_t least_mode; /* of the processor, as mstatus.MPP has it */
    uint32_t kept[KEPT];
    uint32_t native_from, native_bytes;
} machine;

/* Writes mstatus, but with machine mode as MPP, to which the runtime returns; answers what MPP would hold. */
SHARED static uint32_t put_status(uint32_t value)
{
    __asm__ volatile("csrw mstatus, %0" ::"r"(value));
    uint32_t mpp = READ("mstatus") & STATUS_MPP;
    __asm__ volatile("csrs mstatus, %0" ::"r"(STATUS_MPP));
    return mpp;
}

SLOW void machine_start(const struct firmware *firmware)
{
    machine.mpp = READ("mstatus") & STATUS_MPP;
    machine.least_mode = put_status(READ("mstatus") & ~(uint32_t)STATUS_MPP);
    machine.native_from = firmware->native_from;
    machine.native_bytes = firmware->native_to - firmware->native_from;
    frame.direct = firmware->handler;
}

static void set_enabled(bool is_enabled)
{
    if (is_enabled)
        __asm__ volatile("csrs mstatus, %0" ::"r"(STATUS_MPIE));
    else
        __asm__ volatile("csrc mstatus, %0" ::"r"(STATUS_MPIE));
}

/* Traps that are the firmware's */

/* Leads to the firmware's handler, as the processor does out of flash. */
SHARED uint32_t machine_deliver(uint32_t at, uint32_t cause, uint32_t value)
{
    uint32_t handler = machine.tvec & ~3u;
    if (machine.tvec & 1 && cause & CAUSE_IS_INTERRUPT)
        handler += 4 * (cause & 63);
    machine.kept[EPC] = at;
    machine.kept[CAUSE] = cause;
    machine.kept[TVAL] = value;
    machine.mpie = READ("mstatus") & STATUS_MPIE;
    machine.mpp = STATUS_MPP;
    set_enabled(false);
    uint32_t to = service_enter(handler);
    if (!to)
        firmware_stop(STOP_HANDLER, cause, handler);
    return to;
}

/* Goes on at an address, a multiple of 4; a fetch from another than a text word is the firmware's fault. */
SHARED uint32_t machine_go_to(uint32_t address)
{
    uint32_t to = service_enter(address);
    return to ? to : machine_deliver(address, CAUSE_FETCH_ACCESS, address);
}

uint32_t board_fault(enum fault fault, uint32_t pc, uint32_t address)
{
    return machine_deliver(pc, fault == FAULT_FETCH_MISALIGNED ? CAUSE_FETCH_MISALIGNED : CAUSE_FETCH_ACCESS, address);
}

uint32_t board_trap(struct frame *registers, uint32_t pc, uint32_t cause)
{
    (void)registers;
    if (!service_holds(pc))
        firmware_stop(STOP_RUNTIME, pc, cause);
    if (cause & CAUSE_IS_INTERRUPT)
        return machine_deliver(service_resume(pc), cause, 0);
    uint32_t value = READ("mtval");
    return machine_deliver(service_origin(pc), cause, value);
}

/* The one that the processor would take first. */
static uint32_t interrupt_of(uint32_t pending)
{
    if (pending & 1 << EXTERNAL_INTERRUPT)
        return EXTERNAL_INTERRUPT;
    return pending & 1 << SOFTWARE_INTERRUPT ? SOFTWARE_INTERRUPT : TIMER_INTERRUPT;
}

void board_poll(void)
{
    uint32_t pending = READ("mip") & READ("mie");
    if (pending && frame.direct && READ("mstatus") & STATUS_MPIE)
        machine_direct(frame.direct, CAUSE_IS_INTERRUPT | interrupt_of(pending));
}

static uint32_t return_from_trap(uint32_t address)
{
    if (machine.mpp != STATUS_MPP)
        firmware_stop(STOP_USER, 0, address);
    set_enabled(machine.mpie);
    machine.mpie = STATUS_MPIE;
    machine.mpp = machine.least_mode;
    return machine_go_to(machine.kept[EPC]);
}

/* CSRs */

static uint32_t read_status(void)
{
    uint32_t status = READ("mstatus");
    uint32_t enabled = status & STATUS_MPIE ? STATUS_MIE : 0;
    return (status & ~(uint32_t)(STATUS_MIE | STATUS_MPIE | STATUS_MPP)) | enabled | machine.mpie | machine.mpp;
}

static void write_status(uint32_t value)
{
    uint32_t kept = STATUS_MIE | STATUS_MPIE | STATUS_MPRV;
    uint32_t enabled = value & STATUS_MIE ? STATUS_MPIE : 0;
    machine.mpie = value & STATUS_MPIE;
    machine.mpp = put_status((value & ~kept) | enabled);
}

/* A handler that stands in the native range is direct. */
static void write_tvec(uint32_t value)
{
    machine.tvec = value & ~2u;
    frame.direct = value % 4 == 0 && value - machine.native_from < machine.native_bytes ? value : 0;
}

static bool is_kept(uint32_t number)
{
    return number == MSTATUS || number == MTVEC || number - MSCRATCH < KEPT;
}

static uint32_t read_kept(uint32_t number)
{
    if (number == MSTATUS)
        return read_status();
    return number == MTVEC ? machine.tvec : machine.kept[number - MSCRATCH];
}

SHARED static void write_kept(uint32_t number, uint32_t value)
{
    if (number == MSTATUS)
        write_status(value);
    else if (number == MTVEC)
        write_tvec(value);
    else
        machine.kept[number - MSCRATCH] = number - MSCRATCH == EPC ? value & ~3u : value;
}

/* Whether the processor's own answer is the firmware's: where MIE alone is written and nothing read. */
static bool is_as_it_is(uint32_t word)
{
    return is_immediate(word) && source_of(word) == STATUS_MIE;
}

/* From now on a word that changes mstatus alone, and reads nothing, takes less: it is executed as it is, or served by the
 * vector where its register holds nothing but MIE. */
static void replace(uint32_t pc, uint32_t word)
{
    if (number_of(word) != MSTATUS || operation_of(word) == OPERATION_WRITE || rd_of(word))
        return;
    if (is_as_it_is(word))
        service_replace(pc, word);
    else if (!is_immediate(word))
        service_mark(pc, word);
}

/* Executes an instruction of a CSR that is kept. */
static uint32_t execute_kept(struct frame *registers, uint32_t pc, uint32_t address, uint32_t word)
{
    uint32_t operand = operand_of(registers, word), old = read_kept(number_of(word));
    if (does_write(word))
        write_kept(number_of(word), changed(old, operation_of(word), operand));
    if (rd_of(word))
        registers->x[rd_of(word)] = old;
    replace(pc, word);
    return machine_go_to(address + 4);
}

uint32_t board_word(struct frame *registers, uint32_t pc, uint32_t address)
{
    uint32_t word = *(const uint32_t *)address;
    if (word == WORD_MRET)
        return return_from_trap(address);
    if (is_csr_instruction(word) && is_kept(number_of(word)))
        return execute_kept(registers, pc, address, word);
    return machine_other(registers, pc, address, word);
}
