/*
 * The cache service of crates/swi_chip, which is proved, as the vector and the fronts call it: in place of service.c. Here
 * stands what that service is handed, and what C does by itself: fence.i, the front's calls, and waiting between portions.
 *
 * The vector calls chip_exit itself at a direct exit, and service_refused where the answer is no address.
 */
#include <stddef.h>
#include "runtime.h"

/* A slice as code for a machine of 64 bits has it: of its address the lower word is read alone. */
struct slice {
    const void *at;
    uint32_t unused;
    uint64_t length;
};

/* struct Chip of crates/swi_chip/src/chip.rt */
struct chip {
    struct counts counts; /* the first, where native/run reads them */
    uint32_t next;        /* the slot that is filled next */
    uint32_t filled;      /* how many are filled: the first so many */
    uint32_t slots;
    uint32_t size;    /* the words of a slot */
    uint32_t inverse; /* 2^32 divided by them, rounded up */
    uint32_t base;    /* the address of the first text word */
    uint32_t text_bytes;
    uint32_t cache_at; /* the address of the cache's first word */
    uint32_t cache_bytes;
    uint32_t most; /* exits that are linked into one slot */
    uint32_t unused;
    struct slice cache;  /* uint32_t, one for each word of the slots */
    struct slice heads;  /* uint16_t, one for each slot */
    struct slice links;  /* the same */
    struct slice blocks; /* uint32_t, one for each slot */
    struct slice marks;  /* uint16_t, one for each block */
    struct slice memo;   /* uint32_t: frame.memo_filled and frame.memo_targets */
    struct slice places; /* uint32_t, one for each text word */
    struct slice ends;   /* uint32_t, one for each block */
    struct slice words;  /* uint32_t, the words of all blocks */
    struct slice starts; /* uint32_t, one for each block */
};
/* struct Tables of crates/swi_chip_c/src/lib.rt */
struct tables {
    struct slice starts;  /* uint32_t, one for each block */
    struct slice offsets; /* uint32_t, one for each text word */
    struct slice places;  /* the same */
};
_Static_assert(sizeof(struct slice) == 16 && _Alignof(struct slice) == 8, "a slice");
_Static_assert(sizeof(struct counts) == 28 && offsetof(struct chip, cache) == 72, "struct Chip's numbers");
_Static_assert(offsetof(struct chip, starts) == 216 && sizeof(struct chip) == 232, "struct Chip's slices");
_Static_assert(offsetof(struct frame, memo_targets) == offsetof(struct frame, memo_filled) + 4 && MEMO_ENTRIES == 16, "the memo");
_Static_assert(offsetof(struct frame, x) == 0, "the registers");
_Static_assert(sizeof(block_mark) == 2 && PLACE_BLOCK_SHIFT == 13, "the tables");

/* crates/swi_chip/src/answer.rt: answers that are no address, which is a multiple of 4 */
enum answer { NO_TEXT = 1, AGAIN = 2, DAMAGED = 3, MISALIGNED = 5 };

/* crates/swi_chip_c */
void chip_places(struct tables *tables);
void chip_start(struct chip *chip);
uint32_t chip_exit(struct chip *chip, uint32_t pc, uint32_t target);
uint32_t chip_enter(struct chip *chip, uint32_t target);
uint32_t chip_leave(struct chip *chip, uint32_t *registers, uint32_t pc, uint32_t target);
uint32_t chip_origin(const struct chip *chip, uint32_t pc);
uint32_t chip_resume(const struct chip *chip, uint32_t pc);
void chip_put(struct chip *chip, uint32_t pc, uint32_t first, uint32_t second);

extern struct chip service; /* trap.S names it */
struct chip service;

#define EBREAK 0x00100073u
#define NOP 0x00000013u

/* Not inlined, for the room that it would take. */
#define SHARED __attribute__((noinline))

/* What was written to the cache is fetched from now on. */
static uint32_t synchronized(uint32_t answer)
{
    __asm__ volatile("fence.i" ::: "memory");
    return answer;
}

static bool is_address(uint32_t answer)
{
    return answer % 4 == 0;
}

bool service_holds(uint32_t address)
{
    return address - service.cache_at < service.cache_bytes;
}

uint32_t service_origin(uint32_t pc)
{
    return chip_origin(&service, pc);
}

uint32_t service_resume(uint32_t pc)
{
    return chip_resume(&service, pc);
}

/* An entry of the front's is none of the services that are counted. */
uint32_t service_enter(uint32_t target)
{
    uint32_t before = service.counts.services, to;
    while ((to = chip_enter(&service, target)) == AGAIN)
        board_poll();
    frame.services -= service.counts.services - before;
    return is_address(to) ? synchronized(to) : 0;
}

void service_replace(uint32_t pc, uint32_t word)
{
    chip_put(&service, pc, word, NOP);
    (void)synchronized(pc);
}

void service_mark(uint32_t pc, uint32_t word)
{
    chip_put(&service, pc, EBREAK, word);
    (void)synchronized(pc);
}

SLOW struct counts service_counts(void)
{
    struct counts counts = service.counts;
    counts.services += frame.services;
    return counts;
}

/* Exits */

/* A transfer to no text word, to an address that is no multiple of 4, or an EBREAK that is none of the cache. */
SLOW static uint32_t refuse(uint32_t pc, uint32_t target, uint32_t answer)
{
    if (answer == NO_TEXT)
        return board_fault(FAULT_FETCH_ACCESS, target, target);
    if (answer == MISALIGNED)
        return board_fault(FAULT_FETCH_MISALIGNED, chip_origin(&service, pc), target);
    return board_trap(&frame, pc, CAUSE_BREAKPOINT);
}

uint32_t service_refused(uint32_t pc, uint32_t answer)
{
    uint32_t target = ((const uint32_t *)pc)[1];
    while (answer == AGAIN) {
        board_poll();
        answer = chip_exit(&service, pc, target);
    }
    return is_address(answer) ? synchronized(answer) : refuse(pc, target, answer);
}

SHARED uint32_t service_jump(struct frame *registers, uint32_t pc, uint32_t target)
{
    uint32_t to;
    while ((to = chip_leave(&service, registers->x, pc, target)) == AGAIN)
        board_poll();
    return is_address(to) ? synchronized(to) : refuse(pc, target, to);
}

/* An exit whose descriptor is the JALR itself (section 2.5: the I format). */
static uint32_t serve_register(struct frame *registers, uint32_t pc, uint32_t jalr)
{
    uint32_t immediate = jalr >> 20 | (0 - (jalr >> 31)) << 12;
    return service_jump(registers, pc, (registers->x[jalr >> 15 & 31] + immediate) & ~1u);
}

/* A word of the text that traps. Its address, plus 1, stands behind the exit, but where service_mark put the word. */
static uint32_t serve_word(struct frame *registers, uint32_t pc, uint32_t descriptor)
{
    return board_word(registers, pc, descriptor % 4 == 1 ? descriptor - 1 : chip_origin(&service, pc));
}

uint32_t service_trap(struct frame *registers, uint32_t pc, uint32_t cause)
{
    if (cause != CAUSE_BREAKPOINT || !service_holds(pc))
        return board_trap(registers, pc, cause);
    uint32_t descriptor = ((const uint32_t *)pc)[1];
    if ((descriptor & 7) == 7)
        return serve_register(registers, pc, descriptor);
    return descriptor % 4 == 2 ? refuse(pc, descriptor, MISALIGNED) : serve_word(registers, pc, descriptor);
}

/* The start */

SLOW static struct slice slice(const void *at, uint32_t length)
{
    return (struct slice){at, 0, length};
}

/* Of guests alone: in a section of its own, which the linker leaves out of a firmware. */
__attribute__((section(".text.slow.places"), noinline)) void service_fill_places(const struct image *image, uint32_t *places)
{
    struct tables tables = {
        .starts = slice(image->starts, image->blocks),
        .offsets = slice(image->offsets, image->text_words),
        .places = slice(places, image->text_words),
    };
    chip_places(&tables);
}

/* Of the 8 bytes that a slot has in the tables, its block, its list and their number stand in three rows. */
SLOW static void hand_tables(const struct service_memory *memory, uint32_t slots)
{
    uint32_t *blocks = (uint32_t *)(void *)memory->slots;
    uint16_t *heads = (uint16_t *)(void *)(blocks + slots);
    service.blocks = slice(blocks, slots);
    service.heads = slice(heads, slots);
    service.links = slice(heads + slots, slots);
    service.memo = slice(&frame.memo_filled, 1 + MEMO_ENTRIES);
}

SLOW static void hand_image(const struct image *image, const struct service_memory *memory)
{
    service.base = image->base;
    service.text_bytes = 4 * image->text_words;
    service.marks = slice(memory->marks, image->blocks);
    service.places = slice(memory->places, image->text_words);
    service.ends = slice(image->ends, image->blocks);
    service.words = slice(image->words, image->ends[image->blocks - 1]);
    service.starts = slice(image->starts, image->blocks);
}

SLOW void service_start(const struct image *image, const struct service_memory *memory, uint32_t *cache, uint32_t slots,
                        uint32_t links_most)
{
    service.slots = slots;
    service.size = image->block_words;
    service.inverse = 0xffffffffu / image->block_words + 1;
    service.cache_at = (uint32_t)(uintptr_t)cache;
    service.cache_bytes = 4 * slots * image->block_words;
    service.most = links_most;
    service.cache = slice(cache, slots * image->block_words);
    hand_tables(memory, slots);
    hand_image(image, memory);
    chip_start(&service);
    frame.text_base = image->base;
    frame.text_bytes = 4 * image->text_words;
    frame.places = memory->places;
    frame.marks = memory->marks;
    frame.block_words = image->block_words;
    frame.before_cache = service.cache_at - 4;
}
