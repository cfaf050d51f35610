/*
 * What CBMC checks of service.c (test/cbmc). An induction beside the plain model of model.h: the state that the service
 * starts with is the model's, and from **each** state that is the model's each call leads to one, with the model's
 * answer. So it is after each list of calls, of any length. The image is any of BLOCKS_MOST blocks of up to WORDS_MOST
 * words, in SLOTS_MOST slots; cache, tables, memo, registers, counts, targets and the bound of links are any.
 *
 * CALL says which call. Each array has just the length that the service may use.
 */
#include <stdint.h>

uint32_t nondet_word(void);
#define any nondet_word
#define any_half() ((uint16_t)(nondet_word() & 0xffff))

/* What is taken for granted before a call, and has to hold behind it. */
static _Bool is_given;
#define equal(what, found, expected)                                                                                   \
    (is_given ? __CPROVER_assume((found) == (expected)) : __CPROVER_assert((found) == (expected), what))
#define holds(what, fact) equal(what, (_Bool)(fact), 1)

#include "model.h"

/* Images: what image_read accepts, and what `rewrite` puts into a block */

#ifdef VERSION_1 /* of the format: all blocks have the same length */
#define ENDS NULL
#else
#define ENDS ends
#endif

static bool is_jalr(uint32_t word)
{
    return (word & 0x7f) == 0x67;
}

/* Whether the words from an index on, up to `end`, may begin with what `kinds` says of it. */
static bool is_begun(uint32_t at, uint32_t end)
{
    enum kind kind = kinds[at];
    if (kind >= REST || at + sizes[kind] > end)
        return false;
    for (uint32_t k = at + 1; k < at + sizes[kind]; k++)
        if (kinds[k] != REST)
            return false;
    if (kind == PLAIN)
        return words[at] != EBREAK && !is_link((union word){words[at]});
    static const uint32_t lowest[] = {[DIRECT] = 0, [TRAPPING] = 1, [UNALIGNED] = 2, [REGISTER] = 3};
    if (words[at] != EBREAK || (words[at + 1] & 3) != lowest[kind])
        return false;
    return kind != REGISTER || (is_jalr(words[at + 1]) && (words[at + 2] & 3) == 0);
}

static enum kind any_kind(void)
{
    uint32_t kind = any();
    __CPROVER_assume(kind <= REST);
    return (enum kind)kind;
}

static void any_block(uint32_t block)
{
    uint32_t begin = first_word(block), length = image.ends ? any() : WORDS_MOST;
    __CPROVER_assume(length >= 1 && length <= WORDS_MOST);
    ends[block] = begin + length;
    for (uint32_t at = begin; at < begin + length; at++) {
        words[at] = any();
        kinds[at] = any_kind();
    }
    for (uint32_t at = begin; at < begin + length; at += sizes[kinds[at]])
        __CPROVER_assume(is_begun(at, begin + length));
}

/* In each block the first instruction stands at its begin, and each other behind the one before. */
static void any_offsets(uint32_t block)
{
    uint32_t end = block + 1 < image.blocks ? starts[block + 1] : image.text_words;
    for (uint32_t word = starts[block]; word < end; word++) {
        offsets[word] = any();
        __CPROVER_assume(word == starts[block] ? offsets[word] == 0 : offsets[word] > offsets[word - 1]);
        __CPROVER_assume(offsets[word] < length_of(block) && kinds[first_word(block) + offsets[word]] != REST);
    }
}

static void any_image(void)
{
    image = (struct image){WORDS_MOST, BLOCKS_MOST, any(), TEXT_BASE, starts, ENDS, offsets, words};
    __CPROVER_assume(image.text_words >= 1 && image.text_words <= IMAGE_WORDS_MOST);
    for (uint32_t block = 0; block < image.blocks; block++) {
        starts[block] = any();
        __CPROVER_assume(block ? starts[block] > starts[block - 1] : starts[block] == 0);
        __CPROVER_assume(starts[block] < image.text_words);
        any_block(block);
    }
    for (uint32_t block = 0; block < image.blocks; block++)
        any_offsets(block);
}

/* States */

static bool is_text(uint32_t target)
{
    return (target & 3) == 0 && target >= TEXT_BASE && target < text_of(image.text_words);
}

/* What each state of the model has: blocks in the slots that were filled, each once; links of direct exits to where
 * their targets stand; and words in place of exits that stand for a word which isn't one of the 59. */
static void model_slot(uint32_t slot)
{
    bool is_full = model.block[model.slots - 1] != NONE;
    uint32_t block = model.block[slot];
    holds("a slot is filled in order", (block != NONE) == (is_full || slot < model.next));
    holds("a slot has a block of the image", block == NONE || block < image.blocks);
    holds("a block has one slot", block == NONE || slot_of(block) == slot);
    holds("no slot has more links than it may have", links_into(slot) <= model.links_most);
}

static void model_word(uint32_t index)
{
    uint32_t link = model.link[index], replaced = model.replaced[index];
    if (link == NONE && !replaced)
        return;
    holds("what is patched stands in a block", is_filled(index));
    enum kind kind = kinds[given_at(index)];
    if (replaced) {
        holds("a word stands for one of the text", kind == TRAPPING && link == NONE);
        holds("it is no link or exit", !is_link((union word){replaced}) && replaced != EBREAK);
        holds("it is not the last", index % size() + 2 < length_of(model.block[index / size()]));
    } else {
        holds("a link is a direct exit", kind == DIRECT);
        uint32_t target = words[given_at(index) + 1];
        holds("its target is a text word", is_text(target));
        uint32_t word = (target - TEXT_BASE) / 4, slot = slot_of(block_at(word));
        holds("it leads to where that stands", slot != NONE && link == slot * size() + offsets[word]);
    }
}

static void compare_all(void)
{
    holds("the next slot is one", model.next < model.slots);
    for (uint32_t slot = 0; slot < model.slots; slot++)
        model_slot(slot);
    for (uint32_t index = 0; index < model.slots * size(); index++)
        model_word(index);
    compare();
}

static void any_model(void)
{
    model.next = any();
    for (uint32_t slot = 0; slot < SLOTS_MOST; slot++)
        model.block[slot] = any();
    for (uint32_t k = 0; k < CACHE_WORDS; k++) {
        model.link[k] = any();
        model.replaced[k] = any();
    }
    model.counts = (struct counts){any(), any(), any(), any(), any(), any(), any()};
}

static void any_tables(void)
{
    for (uint32_t k = 0; k < CACHE_WORDS; k++)
        cache[k].bits = any();
    for (uint32_t slot = 0; slot < SLOTS_MOST; slot++)
        slots[slot] = (struct slot){any(), any_half(), any_half()};
    for (uint32_t block = 0; block < BLOCKS_MOST; block++)
        marks[block] = any_half();
    for (uint32_t k = 1; k < 32; k++)
        frame.x[k] = any();
    frame.memo_filled = any();
    for (uint32_t k = 0; k < MEMO_ENTRIES; k++) {
        frame.memo_targets[k] = any();
        frame.memo_places[k] = any();
    }
}

/* Each state but the first. */
static void any_state(void)
{
    any_model();
    any_tables();
    service.next_slot = any();
    service.is_full = any() & 1;
    service.counts = model.counts;
    frame.services = model.counts.services;
    compare_all();
}

/* Calls */

static uint32_t registers[32];

static void compare_registers(void)
{
    for (uint32_t k = 0; k < 32; k++)
        equal("a register", frame.x[k], registers[k]);
}

static void compare_told(enum told_of of, uint32_t fault_or_cause, uint32_t pc, uint32_t address, uint32_t answer)
{
    equal("the front's answer", answer, GOES_ON);
    equal("how often the front is told", told.count, 1);
    equal("of what", told.of, of);
    equal("which fault or cause", told.fault_or_cause, fault_or_cause);
    equal("the pc of it", told.pc, pc);
    equal("the address of it", told.address, address);
    told.count = 0;
}

/* The text address of the instruction to which a word of the cache belongs: the last that begins at or before it. */
static uint32_t origin_of(uint32_t index)
{
    uint32_t block = model.block[index / size()], found = starts[block];
    uint32_t end = block + 1 < image.blocks ? starts[block + 1] : image.text_words;
    for (uint32_t word = found; word < end; word++)
        if (offsets[word] <= index % size())
            found = word;
    return text_of(found);
}

static void call_enter(void)
{
    uint32_t target = any(), answer = service_enter(target);
    if (!is_text(target)) {
        equal("the answer to what is no text word", answer, 0);
        return;
    }
    equal("where a text word stands", answer, address_of(model_find((target - TEXT_BASE) / 4)));
    if (any() & 1) { /* as the vector does */
        frame.memo_targets[target / 4 % MEMO_ENTRIES] = target;
        frame.memo_places[target / 4 % MEMO_ENTRIES] = answer;
        frame.memo_filled = 1;
    }
}

/* An index of the cache where the program may stand. */
static uint32_t any_index(void)
{
    uint32_t index = any();
    __CPROVER_assume(index < model.slots * size() && is_filled(index));
    return index;
}

static void serve_direct_exit(uint32_t index, uint32_t target, uint32_t answer)
{
    if (is_text(target))
        equal("where an exit leads", answer, address_of(model_leave(index, (target - TEXT_BASE) / 4)));
    else
        compare_told(TOLD_FAULT, FAULT_FETCH_ACCESS, target, target, answer);
}

static void serve_register_exit(uint32_t index, uint32_t jalr, uint32_t linked, uint32_t answer)
{
    uint32_t offset = jalr >> 20 | (jalr >> 31 ? 0xfffff000u : 0), rd = jalr >> 7 & 31;
    uint32_t target = (registers[jalr >> 15 & 31] + offset) & 0xfffffffeu;
    if (target & 3) {
        compare_told(TOLD_FAULT, FAULT_FETCH_MISALIGNED, origin_of(index), target, answer);
        return;
    }
    if (rd)
        registers[rd] = linked;
    if (!is_text(target)) {
        compare_told(TOLD_FAULT, FAULT_FETCH_ACCESS, target, target, answer);
        return;
    }
    equal("where a jump leads", answer, address_of(model_find((target - TEXT_BASE) / 4)));
    model.counts.services++;
}

static void call_exit(void)
{
    uint32_t index = any_index(), at = given_at(index), pc = address_of(index);
    __CPROVER_assume(is_exit(index));
    enum kind kind = kinds[at];
    uint32_t descriptor = words[at + 1], origin = origin_of(index);
    uint32_t linked = kind == REGISTER ? words[at + 2] : 0;
    uint32_t answer = service_trap(&frame, pc, CAUSE_BREAKPOINT);
    if (kind == DIRECT)
        serve_direct_exit(index, descriptor, answer);
    else if (kind == REGISTER)
        serve_register_exit(index, descriptor, linked, answer);
    else if (kind == UNALIGNED)
        compare_told(TOLD_FAULT, FAULT_FETCH_MISALIGNED, origin, descriptor, answer);
    else
        compare_told(TOLD_WORD, 0, pc, descriptor - 1, answer);
}

/* A trap that is none of an exit. */
static void call_trap(void)
{
    uint32_t pc = any(), cause = any();
    bool is_within = pc >= address_of(0) && pc < address_of(0) + 4 * model.slots * size();
    __CPROVER_assume(cause != CAUSE_BREAKPOINT || !is_within);
    holds("which addresses are of the cache", service_holds(pc) == is_within);
    uint32_t answer = service_trap(&frame, pc, cause);
    compare_told(TOLD_TRAP, cause, pc, 0, answer);
}

static void call_replace(void)
{
    uint32_t index = any_index(), word = any();
    __CPROVER_assume(is_exit(index) && kinds[given_at(index)] == TRAPPING);
    __CPROVER_assume(word && word != EBREAK && !is_link((union word){word}));
    service_replace(address_of(index), word);
    if (index % size() + 2 < length_of(model.block[index / size()]))
        model.replaced[index] = word;
}

/* Behind a replaced word its instruction is done, and at a direct exit, linked or not, too. */
static void call_origin(void)
{
    uint32_t index = any_index(), at = given_at(index), pc = address_of(index), resume = origin_of(index);
    if (kinds[at] == DIRECT)
        resume = words[at + 1];
    if (kinds[at] == REST && kinds[at - 1] == TRAPPING)
        resume = words[at] - 1 + 4;
    equal("the instruction of a word", service_origin(pc), origin_of(index));
    equal("where an interrupted program goes on", service_resume(pc), resume);
}

#define START 0
#define ENTER 1
#define EXIT 2
#define TRAP 3
#define REPLACE 4
#define ORIGIN 5

int main(void)
{
    uint32_t links_most = any();
    __CPROVER_assume(links_most >= 1 && links_most <= LINKS_ANY);
    is_given = 1;
    any_image();
    any_tables();
    start(SLOTS_MOST, links_most);
    if (CALL != START)
        any_state();
    for (uint32_t k = 0; k < 32; k++)
        registers[k] = frame.x[k];
    is_given = 0;
    if (CALL == ENTER)
        call_enter();
    if (CALL == EXIT)
        call_exit();
    if (CALL == TRAP)
        call_trap();
    if (CALL == REPLACE)
        call_replace();
    if (CALL == ORIGIN)
        call_origin();
    equal("what else the front is told", told.count, 0);
    compare_all();
    compare_registers();
    return 0;
}
