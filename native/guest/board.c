/*
 * qemu's board "virt": loads a rewritten file that stands in memory, starts it in the cache, and serves its calls and
 * faults by semihosting.
 */
#include "board.h"

/* The board's clock of 10 MHz, and its alarm (CLINT). */
#define CLOCK ((volatile uint32_t *)0x0200bff8)
#define ALARM ((volatile uint32_t *)0x02004000)
#define ALARM_TICKS 1000u /* 100 us */

/* Fields and values of the standard's machine CSRs (Privileged Architecture). */
enum { STATUS_MPIE = 0x80, STATUS_MPP = 0x1800, ENABLE_TIMER = 0x80 };
enum {
    CAUSE_ILLEGAL = 2,
    CAUSE_LOAD_MISALIGNED = 4,
    CAUSE_LOAD_ACCESS = 5,
    CAUSE_STORE_MISALIGNED = 6,
    CAUSE_STORE_ACCESS = 7,
    CAUSE_LOAD_PAGE = 13,
    CAUSE_STORE_PAGE = 15
};
#define CAUSE_TIMER 0x80000007u

static const struct parameters *const parameters = (const struct parameters *)PARAMETERS;
static uint32_t slot_count, slot_bytes;
static uint32_t alarms;

static bool has(enum option option)
{
    return parameters->options & option;
}

/* Endings */

static void put_count(enum stream stream, const char *name, uint32_t count)
{
    put_text(stream, name);
    put_text(stream, " ");
    put_decimal(stream, count);
    put_text(stream, "\n");
}

static void put_counts(void)
{
    struct counts counts = service_counts();
    put_count(STREAM_OUT, "services", counts.services);
    put_count(STREAM_OUT, "misses", counts.misses);
    put_count(STREAM_OUT, "evictions", counts.evictions);
    put_count(STREAM_OUT, "links", counts.links);
    put_count(STREAM_OUT, "unlinks", counts.unlinks);
    put_count(STREAM_OUT, "writes", counts.copied + counts.links + counts.unlinks);
}

void end_program(uint32_t status)
{
    if (has(OPTION_STATS))
        put_counts();
    if (has(OPTION_TIMER))
        put_count(STREAM_ERR, "native: alarms", alarms);
    if (has(OPTION_DUMP)) {
        host_dump("cache.bin", (const void *)CACHE, slot_count * slot_bytes);
        host_dump("slots.bin", (const void *)SERVICE_MEMORY, slot_count * sizeof(struct slot));
    }
    host_exit(status);
}

static void put_place(const char *before_pc, uint32_t pc, uint32_t address)
{
    put_text(STREAM_ERR, before_pc);
    put_hex(STREAM_ERR, pc);
    put_text(STREAM_ERR, ", address ");
    put_hex(STREAM_ERR, address);
    put_text(STREAM_ERR, "\n");
}

static const char *name_of(enum fault fault, uint32_t pc)
{
    switch (fault) {
    case FAULT_FETCH_MISALIGNED:
        return "fetch-misaligned";
    case FAULT_FETCH_ACCESS:
        return "fetch-access";
    case FAULT_LOAD_ACCESS:
        return "load-access";
    case FAULT_STORE_ACCESS:
        return "store-access";
    case FAULT_TRAP:
        break;
    }
    return memory_word(pc) == 0x00100073 ? "break" : "illegal";
}

static _Noreturn void stop_at_fault(enum fault fault, uint32_t pc, uint32_t address)
{
    put_text(STREAM_ERR, "fault: ");
    put_text(STREAM_ERR, name_of(fault, pc));
    put_place(" at ", pc, address);
    end_program(STATUS_FAULT);
}

uint32_t board_fault(enum fault fault, uint32_t pc, uint32_t address)
{
    stop_at_fault(fault, pc, address);
}

uint32_t board_word(struct frame *registers, uint32_t pc, uint32_t address)
{
    (void)registers, (void)pc;
    stop_at_fault(FAULT_TRAP, address, address);
}

void board_poll(void)
{
}

void stop_at_store(uint32_t pc, uint32_t address)
{
    put_place("store into text: pc ", pc, address);
    end_program(STATUS_STORE_TEXT);
}

/* Traps */

static void set_alarm(void)
{
    ALARM[1] = 0xffffffff;
    ALARM[0] = CLOCK[0] + ALARM_TICKS;
    ALARM[1] = 0; /* good for the first minutes of the clock */
}

static _Noreturn void stop_runtime(uint32_t pc, uint32_t cause)
{
    put_text(STREAM_ERR, "native: a trap of cause ");
    put_decimal(STREAM_ERR, cause);
    put_text(STREAM_ERR, " at ");
    put_hex(STREAM_ERR, pc);
    put_text(STREAM_ERR, "\n");
    host_exit(STATUS_RUNTIME);
}

static uint32_t read_mtval(void)
{
    uint32_t value;
    __asm__ volatile("csrr %0, mtval" : "=r"(value));
    return value;
}

static _Noreturn void stop_at_exception(uint32_t pc, uint32_t cause)
{
    uint32_t address = read_mtval(), origin = service_origin(pc);
    switch (cause) {
    case CAUSE_LOAD_MISALIGNED:
    case CAUSE_LOAD_ACCESS:
    case CAUSE_LOAD_PAGE:
        stop_at_fault(FAULT_LOAD_ACCESS, origin, address);
    case CAUSE_STORE_ACCESS:
    case CAUSE_STORE_PAGE:
        if (touches_text(address, 4) && memory_allows(address, 1, RIGHT_WRITE))
            stop_at_store(origin, address);
        stop_at_fault(FAULT_STORE_ACCESS, origin, address);
    case CAUSE_STORE_MISALIGNED:
        stop_at_fault(FAULT_STORE_ACCESS, origin, address);
    case CAUSE_ILLEGAL:
        stop_at_fault(FAULT_TRAP, origin, origin);
    default:
        stop_runtime(pc, cause);
    }
}

uint32_t board_trap(struct frame *registers, uint32_t pc, uint32_t cause)
{
    if (cause == CAUSE_TIMER) {
        alarms++;
        set_alarm();
        return pc;
    }
    if (!service_holds(pc))
        stop_runtime(pc, cause);
    if (cause != CAUSE_USER_CALL && cause != CAUSE_MACHINE_CALL)
        stop_at_exception(pc, cause);
    call(registers->x, pc);
    return pc + 4;
}

/* The start */

static _Noreturn void refuse_cache(const char *why, uint32_t limit)
{
    put_text(STREAM_ERR, why);
    put_decimal(STREAM_ERR, parameters->cache_bytes);
    put_text(STREAM_ERR, " ");
    put_decimal(STREAM_ERR, limit);
    put_text(STREAM_ERR, "\n");
    host_exit(STATUS_CACHE);
}

static void lay_out_slots(const struct image *image)
{
    slot_bytes = 4 * image->block_words;
    slot_count = parameters->cache_bytes / slot_bytes;
    if (!slot_count)
        refuse_cache("cache small: ", slot_bytes);
    if (slot_count > CACHE_SLOTS_MOST)
        refuse_cache("cache large: ", CACHE_SLOTS_MOST * slot_bytes);
    if (slot_count * image->block_words > CACHE_WORDS_MOST)
        refuse_cache("cache large: ", 4 * CACHE_WORDS_MOST);
}

static enum protection protection_for(const uint8_t *file)
{
    if (has(OPTION_MACHINE))
        return PROTECTION_NONE;
    return has(OPTION_PAGES) || !program_is_for_board(file) ? PROTECTION_PAGES : PROTECTION_PMP;
}

/* Heap and stack, as docs/reference.md has them (What a program finds); answers the program's sp. */
static uint32_t add_heap_and_stack(uint32_t heap)
{
    uint32_t heap_bytes = parameters->heap_bytes, stack_bytes = parameters->stack_bytes;
    uint32_t stack = ((heap + heap_bytes + 4095) & ~4095u) + 4096;
    if (stack < heap || stack + stack_bytes - 1 < stack)
        refuse(STATUS_BOARD, "native: heap and stack pass the end of memory");
    memory_add(heap, heap_bytes, RIGHT_READ | RIGHT_WRITE);
    memory_add(stack, stack_bytes, RIGHT_READ | RIGHT_WRITE);
    return (stack + stack_bytes - 64) & ~15u;
}

static void start_service(const struct image *image)
{
    struct service_memory memory = {.slots = (struct slot *)SERVICE_MEMORY};
#ifndef SEARCH
    memory.places = (const uint32_t *)PLACES;
    service_fill_places(image, (uint32_t *)PLACES);
#endif
#ifndef SCAN
    memory.marks = (block_mark *)(memory.slots + slot_count);
#endif
    service_start(image, &memory, (uint32_t *)CACHE, slot_count, LINKS_ANY);
}

static void start_hart(uint32_t pc)
{
    uint32_t mode = has(OPTION_MACHINE) ? STATUS_MPP : 0;
    __asm__ volatile("csrc mstatus, %0; csrs mstatus, %1" ::"r"(STATUS_MPP), "r"(mode));
    if (has(OPTION_TIMER)) {
        set_alarm();
        __asm__ volatile("csrs mie, %0; csrs mstatus, %1" ::"r"(ENABLE_TIMER), "r"(STATUS_MPIE));
    }
    __asm__ volatile("csrw mepc, %0" ::"r"(pc));
}

void board_start(void)
{
    const uint8_t *file = (const uint8_t *)parameters->file;
    struct program program;
    host_open();
    program_find(&program, file, parameters->file_bytes);
    lay_out_slots(&program.image);
    calls_start(program.end, parameters->heap_bytes, &program.image);
    memory_start(protection_for(file), parameters->cache_bytes);
    program_load(file);
    program_warn(&program.image);
    frame.x[2] = add_heap_and_stack(program.end);
    memory_protect();
    start_service(&program.image);
    uint32_t entry = service_enter(program.entry);
    if (!entry)
        refuse(STATUS_ELF, "native: the entry is not the address of a text word");
    start_hart(entry);
}
