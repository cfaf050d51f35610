/*
 * What Frama-C's EVA runs of service.c (test/alarms): lists of calls of any length, for two images of three blocks in
 * one slot or two. EVA keeps each state apart, and ends when each call from each state leads to one that it has: so it
 * has seen each list. An alarm would be an access beside an array, a read of what was never written, or another thing
 * that C leaves undefined.
 *
 * The program's registers are any words, and targets any addresses.
 */
#include <__fc_builtin.h>

#include "../places.c"
#include "../service.c"

#define BLOCKS 3u
#define BLOCK_WORDS 5u
#define SLOTS_MOST 2u
#define TEXT_WORDS 6u
#define WORDS 12u
#define TEXT_BASE 0x10000u
#define TEXT(word) (TEXT_BASE + 4 * (word))
#define DIRECT(target) EBREAK, (target)
#define REGISTER(jalr) EBREAK, (jalr), 0x12345678 /* what it links */
#define TRAPS(word) EBREAK, TEXT(word) + 1
#define JALR_RA_T0 0x000280e7u  /* jalr ra, 0(t0) */
#define JALR_T0_4_T0 0x004282e7u /* jalr t0, 4(t0) */

/* A branch's two exits; a jump over a register behind a word; and a word that traps, with an exit behind it. */
static const uint32_t starts[BLOCKS] = {0, 2, 4};
static const uint32_t ends[BLOCKS] = {4, 8, 12};
static const uint32_t offsets[TEXT_WORDS] = {0, 2, 0, 1, 0, 2};
static const uint32_t words[][WORDS] = {
    {DIRECT(TEXT(2)), DIRECT(TEXT(4)), NOP, REGISTER(JALR_RA_T0), TRAPS(4), DIRECT(TEXT(0))},
    {DIRECT(TEXT(1)), DIRECT(TEXT(6)), NOP, REGISTER(JALR_T0_4_T0), TRAPS(4), DIRECT(TEXT(2) + 2)},
};

struct frame frame;
static uint32_t cache[SLOTS_MOST * BLOCK_WORDS];
static struct slot slots[SLOTS_MOST];
static block_mark marks[BLOCKS];
static uint32_t places[TEXT_WORDS];

uint32_t board_fault(enum fault fault, uint32_t pc, uint32_t address)
{
    (void)fault, (void)pc, (void)address;
    return 0;
}

uint32_t board_trap(struct frame *registers, uint32_t pc, uint32_t cause)
{
    (void)registers, (void)cause;
    return pc;
}

uint32_t board_word(struct frame *registers, uint32_t pc, uint32_t address)
{
    (void)registers, (void)address;
    return pc;
}

void board_poll(void)
{
}

/* What a call finds beside the state that it leads to: the program's registers, and whether the vector has filled its
 * memo. The counts are left out, since calls only add to them. */
static void set_free(void)
{
    service.counts = (struct counts){0};
    frame.services = 0;
    frame.memo_filled = Frama_C_unsigned_int_interval(0, 1);
    for (uint32_t k = 0; k < 32; k++)
        frame.x[k] = Frama_C_unsigned_int_interval(0, 0xffffffff);
}

/* Of each number an address: the text words, and then any below the text, between two of its words, or above it. */
#define TARGETS (TEXT_WORDS + 3)
static uint32_t target_by(uint32_t number)
{
    if (number < TEXT_WORDS)
        return TEXT(number);
    if (number == TEXT_WORDS)
        return Frama_C_unsigned_int_interval(0, TEXT_BASE - 5);
    if (number == TEXT_WORDS + 1)
        return Frama_C_unsigned_int_interval(TEXT(1) + 2, TEXT(1) + 3);
    return Frama_C_unsigned_int_interval(TEXT(TEXT_WORDS), 0xfffffff0);
}

static bool is_placed(uint32_t index)
{
    uint32_t slot = index / BLOCK_WORDS;
    return (service.is_full || slot < service.next_slot) &&
           index % BLOCK_WORDS < block_length(&service.image, service.slots[slot].block);
}

static void call_at(uint32_t index, uint32_t number)
{
    uint32_t pc = address_of(index), descriptor;
    if (!is_placed(index))
        return;
    if (number == 0) {
        service_origin(pc);
        service_resume(pc);
        service_trap(&frame, pc, CAUSE_MACHINE_CALL);
    }
    if (cache[index] != EBREAK)
        return;
    descriptor = cache[index + 1];
    if (descriptor % 4 == 1 && number == 1)
        service_replace(pc, 0x10500073); /* wfi */
    if (descriptor % 4 == 3)
        frame.x[5] = target_by(number);
    if (descriptor % 4 == 3 || number == 0)
        service_trap(&frame, pc, CAUSE_BREAKPOINT);
}

static void explore(uint32_t slot_count)
{
    uint32_t indices = slot_count * BLOCK_WORDS, call = 0;
    while (Frama_C_nondet(0, 1)) {
        set_free();
        call = Frama_C_unsigned_int_interval(0, TARGETS + indices * TARGETS - 1);
        //@ split call;
        if (call < TARGETS)
            service_enter(target_by(call));
        else
            call_at(call / TARGETS - 1, call % TARGETS);
        //@ merge call;
        set_free();
        call = 0;
    }
}

static void start(uint32_t image, uint32_t slot_count, uint32_t links_most)
{
    struct image given = {BLOCK_WORDS, BLOCKS, TEXT_WORDS, TEXT_BASE, starts, ends, offsets, words[image]};
    struct service_memory memory = {slots, marks, places};
    service_fill_places(&given, places);
    for (uint32_t k = 0; k < SLOTS_MOST * BLOCK_WORDS; k++)
        cache[k] = 0;
    service_start(&given, &memory, cache, slot_count, links_most);
}

int main(void)
{
    start(IMAGE, SLOTS, LINKS);
    explore(SLOTS);
    return 0;
}
