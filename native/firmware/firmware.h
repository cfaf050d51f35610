/*
 * The firmware front: runs a program that has the processor for itself, as a vendor's flow links it, out of the cache.
 * What its files tell each other, and what native/pack tells them.
 */
#ifndef FIRMWARE_H
#define FIRMWARE_H
#include "../runtime.h"

/* What `pack` writes of a firmware, in words. */
struct firmware {
    uint32_t magic;
    uint32_t entry;
    uint32_t links_most;             /* into one slot */
    uint32_t native_from, native_to; /* code that interrupts execute in flash, where mtvec leads to it */
    void (*native_start)(void);      /* for tests: called in flash before the program begins; may be NULL */
    uint32_t handler;                /* for tests: the direct handler before the program sets mtvec; 0: none */
    const uint32_t *text;            /* the firmware's own words in flash, as they were linked */
    uint32_t text_words;
    uint32_t slow_sum, fast_sum; /* CRC-32 of the runtime in flash, and of its fast part */
    uint32_t sum;                /* of image, places and text, one behind the other */
    uint32_t header_sum;         /* of the words above */
};
#define FIRMWARE_MAGIC 0x33465753u /* "SWF3" */

/* By pack: the header, the image and the table of places. By the linker: the service's tables, and the cache. */
extern const struct firmware swicache_firmware;
extern const uint32_t swicache_image[], swicache_places[], swicache_places_end[];
extern const uint32_t swicache_slow[], swicache_slow_end[], swicache_fast[], swicache_fast_end[];
extern uint32_t swicache_data[], swicache_data_end[], swicache_tables[], swicache_tables_end[], swicache_cache[], swicache_cache_end[];

/* Why the runtime has stopped for good; native/run tells them. */
enum stop_reason {
    STOP_NO_FIRMWARE = 1, /* flash holds none: `address` is the header's */
    STOP_DAMAGED,         /* header, runtime, image, places or text are not what was packed */
    STOP_IMAGE,           /* the image fails a check: `pc` the number, `address` the word */
    STOP_ROOM,            /* tables or cache are smaller than this image asks for */
    STOP_ENTRY,           /* the entry, `address`, is no text word */
    STOP_HANDLER,         /* a trap of cause `pc` whose handler, at `address`, is no text word */
    STOP_RUNTIME,         /* a trap of cause `address` at `pc`, in the runtime or in native code */
    STOP_USER,            /* the MRET at `address` would lead to another mode than machine mode */
    STOP_LOCKED,          /* the CSR instruction at `address` would lock memory of the runtime by PMP */
};

/* Where a debugger, or a board's own function, finds why. */
struct stop {
    uint32_t reason, pc, address;
};
extern struct stop swicache_stop;

/* The board's, which may be left out: called once when the runtime stops for good, with interrupts off. */
void board_stopped(const struct stop *stop);

/* start.S */
extern const uint32_t crc_table[256];

/* start.c, both called by start.S: the second sets the frame and mepc */
void firmware_check(void);
void firmware_start(void);
_Noreturn void firmware_stop(enum stop_reason reason, uint32_t pc, uint32_t address);

/* machine.c: the program's own machine mode, as the runtime keeps it. */
void machine_start(const struct firmware *firmware);

#define READ(csr)                                                                                                      \
    __extension__({                                                                                                    \
        uint32_t value_;                                                                                               \
        __asm__ volatile("csrr %0, " csr : "=r"(value_));                                                              \
        value_;                                                                                                        \
    })

/* machine.c: leads to the firmware's handler, as the processor does out of flash. */
uint32_t machine_deliver(uint32_t at, uint32_t cause, uint32_t value);

/* machine.c: goes on at an address, a multiple of 4; a fetch from another than a text word is the firmware's fault. */
uint32_t machine_go_to(uint32_t address);

/* other.c: executes what is neither MRET nor an instruction of a CSR that is kept. */
uint32_t machine_other(struct frame *registers, uint32_t pc, uint32_t address, uint32_t word);

/* machine.S: executes one CSR instruction whose rd and rs1 are a0; is_good is 0 where the processor refuses it. */
struct tried {
    uint32_t value, is_good;
};
struct tried machine_try(uint32_t instruction, uint32_t value);

/* The fields of a CSR instruction (Volume I, chapter Zicsr). */
enum { OPERATION_WRITE = 1, OPERATION_SET = 2, OPERATION_CLEAR = 3, OPCODE_SYSTEM = 0x73 };

static inline uint32_t number_of(uint32_t word)
{
    return word >> 20;
}

static inline uint32_t operation_of(uint32_t word)
{
    return word >> 12 & 3;
}

/* rs1, or the immediate in its place. */
static inline uint32_t source_of(uint32_t word)
{
    return word >> 15 & 31;
}

static inline bool is_immediate(uint32_t word)
{
    return word >> 14 & 1;
}

static inline bool does_write(uint32_t word)
{
    return operation_of(word) == OPERATION_WRITE || source_of(word);
}

static inline uint32_t rd_of(uint32_t word)
{
    return word >> 7 & 31;
}

static inline uint32_t operand_of(const struct frame *registers, uint32_t word)
{
    if (is_immediate(word) || !source_of(word))
        return source_of(word);
    return registers->x[source_of(word)];
}

static inline bool is_csr_instruction(uint32_t word)
{
    return (word & 127) == OPCODE_SYSTEM && operation_of(word);
}

/* What a CSR holds behind one. */
static inline uint32_t changed(uint32_t old, uint32_t operation, uint32_t operand)
{
    if (operation == OPERATION_WRITE)
        return operand;
    return operation == OPERATION_SET ? old | operand : old & ~operand;
}

/* pmp.c: whether a CSR instruction that writes settings of PMP would lock memory of the runtime or the cache. */
bool pmp_locks_runtime(uint32_t word, uint32_t operand);

/* machine.S: runs a direct handler within a service, on the program's stack. */
void machine_direct(uint32_t handler, uint32_t cause);

#endif
