/*
 * The cache service: it copies blocks into the slots of a cache, links exits by jumps that it patches into the copied
 * words, evicts the oldest block first and undoes the links into it. It knows nothing of the board.
 *
 * Slots are filled in order and taken again in this order, so the slot that the next miss takes is the free one with
 * the lowest number, and behind that the one with the oldest block.
 *
 * The list of the exits that are linked into a slot runs through the cache itself. A linked exit is a JAL, so the word
 * behind it, its descriptor, is never executed: it holds the list's neighbours, and is read from the image again when
 * the link is undone. No rendering has a JAL with rd = x0 (an exit stands for it), so a word that is one is a link.
 *
 * Built with SCAN a block's slot is found by looking at all slots, and no table has a field for each block; with BYTE_TABLE
 * this field has one byte in place of two. Built with
 * SEARCH the block of a text word is found by halving, and no table has a field for each text word.
 */
#include <stddef.h>
#include "runtime.h"

#define EBREAK 0x00100073u
#define JAL_X0 0x0000006fu
#define NOP 0x00000013u

/* Not inlined, for the room that it would take, or the registers that its callers would save. */
#define SHARED __attribute__((noinline))

union word {
    uint32_t bits;
    struct {
        uint16_t next, previous; /* the index of an exit, plus 1; 0 at the list's end. `next` has the lower bits */
    } link;
};

static struct {
    struct counts counts; /* the first, where native/run reads them */
    struct image image;
    union word *cache;
    struct slot *slots;
    uint32_t bytes; /* of all slots */
    uint32_t slot_count;
    uint32_t next_slot; /* which the next miss takes */
    bool is_full;       /* whether every slot has a block */
    uint32_t links_most;
} service;

#if UINTPTR_MAX == UINT32_MAX /* else this is a host, where test/service_test.c tries this file */
_Static_assert(offsetof(struct frame, text_base) == FRAME_TEXT_BASE, "FRAME_TEXT_BASE");
_Static_assert(offsetof(struct frame, text_bytes) == FRAME_TEXT_BYTES, "FRAME_TEXT_BYTES");
_Static_assert(offsetof(struct frame, places) == FRAME_PLACES, "FRAME_PLACES");
_Static_assert(offsetof(struct frame, marks) == FRAME_MARKS, "FRAME_MARKS");
_Static_assert(offsetof(struct frame, before_cache) == FRAME_BEFORE_CACHE, "FRAME_BEFORE_CACHE");
_Static_assert(offsetof(struct frame, services) == FRAME_SERVICES, "FRAME_SERVICES");
_Static_assert(offsetof(struct frame, direct) == FRAME_DIRECT, "FRAME_DIRECT");
_Static_assert(offsetof(struct frame, resume) == FRAME_RESUME, "FRAME_RESUME");
_Static_assert(offsetof(struct frame, target) == FRAME_TARGET, "FRAME_TARGET");
_Static_assert(offsetof(struct frame, memo_filled) == FRAME_MEMO_FILLED, "FRAME_MEMO_FILLED");
_Static_assert(offsetof(struct frame, block_words) == FRAME_BLOCK_WORDS, "FRAME_BLOCK_WORDS");
_Static_assert(offsetof(struct frame, memo_targets) == FRAME_MEMO_TARGETS, "FRAME_MEMO_TARGETS");
_Static_assert(offsetof(struct frame, memo_places) == FRAME_MEMO_PLACES, "FRAME_MEMO_PLACES");
_Static_assert(sizeof(struct frame) <= FRAME_BYTES, "FRAME_BYTES");
#endif

/* What was written to the cache is fetched from now on. */
static void synchronize(void)
{
#ifdef __riscv
    __asm__ volatile("fence.i" ::: "memory");
#endif
}

static uint32_t address_of(uint32_t index)
{
    return (uint32_t)(uintptr_t)(service.cache + index);
}

static uint32_t index_of(uint32_t address)
{
    return (address - address_of(0)) / 4;
}

bool service_holds(uint32_t address)
{
    return address - address_of(0) < service.bytes;
}

/* Places and slots */

#ifdef SEARCH
/* The block of a text word: the last that starts at or before it. */
static uint32_t block_of(const struct image *image, uint32_t text_word)
{
    uint32_t low = 0;
    for (uint32_t count = image->blocks; count > 1;) {
        uint32_t half = count / 2;
        if (image->starts[low + half] <= text_word)
            low += half;
        count -= half;
    }
    return low;
}
#endif

/* The place of a text word, as the table has it. */
static uint32_t place_of(uint32_t text_word)
{
#ifdef SEARCH
    return block_of(&service.image, text_word) << PLACE_BLOCK_SHIFT | service.image.offsets[text_word];
#else
    return frame.places[text_word];
#endif
}

static uint32_t block_of_place(uint32_t place)
{
    return place >> PLACE_BLOCK_SHIFT;
}

static uint32_t offset_of_place(uint32_t place)
{
    return place & PLACE_OFFSET_MASK;
}

static uint32_t first_of_slot(uint32_t slot)
{
    return slot * service.image.block_words;
}

static uint32_t slot_at(uint32_t index)
{
    return index / service.image.block_words;
}

/* The index of a block's first word in the cache, plus 1; 0 where it has no slot. */
static uint32_t first_of(uint32_t block)
{
#ifdef SCAN
    uint32_t filled = service.is_full ? service.slot_count : service.next_slot;
    for (uint32_t slot = 0; slot < filled; slot++)
        if (service.slots[slot].block == block)
            return first_of_slot(slot) + 1;
    return 0;
#elif defined BYTE_TABLE
    uint32_t mark = frame.marks[block];
    return mark ? first_of_slot(mark - 1) + 1 : 0;
#else
    return frame.marks[block];
#endif
}

static void set_slot(uint32_t block, uint32_t slot)
{
#ifdef SCAN
    (void)block, (void)slot;
#elif defined BYTE_TABLE
    frame.marks[block] = (block_mark)(slot + 1);
#else
    frame.marks[block] = (block_mark)(first_of_slot(slot) + 1);
#endif
}

static void set_no_slot(uint32_t block)
{
#ifdef SCAN
    (void)block;
#else
    frame.marks[block] = 0;
#endif
}

/* Links */

static bool is_link(union word word)
{
    return word.bits << 20 == JAL_X0 << 20;
}

/* JAL x0 over so many bytes, less than 2^20 on either side (The RISC-V Instruction Set Manual, Volume I, section 2.5: the
 * J format). */
static uint32_t jump_over(uint32_t bytes)
{
    return (bytes & 0x800ff000) | (bytes << 20 & 0x7fe00000) | (bytes << 9 & 0x100000) | JAL_X0;
}

/* The index to which such a word at an index jumps. */
static uint32_t target_of(uint32_t exit, uint32_t jump)
{
    uint32_t sign = jump >> 31 ? 0xfff00000 : 0;
    uint32_t bytes = sign | (jump & 0xff000) | (jump >> 9 & 0x800) | (jump >> 20 & 0x7fe);
    return (4 * exit + bytes) / 4;
}

/* Where the slot of a target has as many links as it may have. */
SHARED static uint32_t refuse(uint32_t target)
{
    service.counts.refused++;
    synchronize();
    return address_of(target);
}

/* Makes the exit at an index a jump to another, and the first of the links into that one's slot; but where the slot has
 * as many as it may have. Answers where the target stands. */
SHARED static uint32_t link(uint32_t exit, uint32_t target)
{
    struct slot *slot = &service.slots[slot_at(target)];
    if (slot->links == service.links_most)
        return refuse(target);
    union word *word = service.cache + exit;
    uint16_t second = slot->first_link, mark = (uint16_t)(exit + 1);
    word[0].bits = jump_over(4 * (target - exit));
    word[1].bits = second;
    if (second)
        service.cache[second].link.previous = mark;
    slot->first_link = mark;
    slot->links++;
    service.counts.links++;
    synchronize();
    return address_of(target);
}

/* Makes a link an exit again, as it stands in the image. */
static void undo(uint32_t exit)
{
    uint32_t slot = slot_at(exit);
    uint32_t offset = exit - first_of_slot(slot);
    uint32_t begin = block_begin(&service.image, service.slots[slot].block);
    service.cache[exit].bits = EBREAK;
    service.cache[exit + 1].bits = service.image.words[begin + offset + 1];
    service.counts.unlinks++;
}

/* Takes a link out of the list that it stands in. */
static void take_out(uint32_t exit)
{
    union word *cache = service.cache;
    struct slot *slot = &service.slots[slot_at(target_of(exit, cache[exit].bits))];
    uint16_t next = cache[exit + 1].link.next;
    uint16_t previous = cache[exit + 1].link.previous;
    if (next)
        cache[next].link.previous = previous;
    if (previous)
        cache[previous].link.next = next;
    else
        slot->first_link = next;
    slot->links--;
}

/* Blocks */

static void take_out_links_from(uint32_t first, uint32_t length)
{
    const union word *end = service.cache + first + length;
    for (const union word *word = service.cache + first; word < end; word++)
        if (is_link(*word))
            take_out((uint32_t)(word++ - service.cache));
}

static void undo_links_into(uint32_t slot)
{
    uint32_t link = service.slots[slot].first_link;
    for (uint32_t count = 1; link; count++) {
        uint32_t next = service.cache[link].link.next;
        undo(link - 1);
        link = next;
        if (count % POLL_LINKS == 0)
            board_poll();
    }
}

/* Empties the memo of the vector. An empty entry holds a target of another one's number. */
static void forget_targets(void)
{
    for (uint32_t k = 0; k < MEMO_ENTRIES; k += 4) {
        frame.memo_targets[k] = 4;
        frame.memo_targets[k + 1] = 0;
        frame.memo_targets[k + 2] = 0;
        frame.memo_targets[k + 3] = 0;
    }
    frame.memo_targets[1] = 0;
    frame.memo_filled = 0;
}

static void evict(uint32_t slot)
{
    uint32_t block = service.slots[slot].block;
    take_out_links_from(first_of_slot(slot), block_length(&service.image, block));
    undo_links_into(slot);
    set_no_slot(block);
    if (frame.memo_filled)
        forget_targets();
    service.counts.evictions++;
}

/* Four words at a time: the loop's own instructions would else be three of five. */
static void copy(union word *to, const uint32_t *from, uint32_t count)
{
    for (; count >= 4; count -= 4, to += 4, from += 4) {
        uint32_t first = from[0], second = from[1], third = from[2], fourth = from[3];
        to[0].bits = first;
        to[1].bits = second;
        to[2].bits = third;
        to[3].bits = fourth;
    }
    for (uint32_t k = 0; k < count; k++)
        to[k].bits = from[k];
}

/* Copies a block that has no slot into the next one, and answers the index of its first word. */
SHARED static uint32_t miss(uint32_t block)
{
    uint32_t slot = service.next_slot;
    uint32_t first = first_of_slot(slot);
    uint32_t length = block_length(&service.image, block);
    if (service.is_full)
        evict(slot);
    if (++service.next_slot == service.slot_count) {
        service.next_slot = 0;
        service.is_full = true;
    }
    copy(service.cache + first, service.image.words + block_begin(&service.image, block), length);
    service.slots[slot] = (struct slot){block, 0, 0};
    set_slot(block, slot);
    service.counts.misses++;
    service.counts.copied += length;
    return first;
}

uint32_t service_enter(uint32_t target)
{
    uint32_t distance = target - frame.text_base;
    if (distance >= frame.text_bytes || distance % 4 != 0)
        return 0;
    uint32_t place = place_of(distance / 4), first = first_of(block_of_place(place));
    if (!first) {
        first = miss(block_of_place(place)) + 1;
        synchronize();
    }
    return address_of(first - 1 + offset_of_place(place));
}

/* Copies the block of the place to which the exit at an index leads, and links the exit; but where its own block left for
 * that one, nothing is linked. */
SHARED static uint32_t leave_by(uint32_t exit, uint32_t place)
{
    uint32_t first = miss(block_of_place(place)), target = first + offset_of_place(place);
    bool is_gone = exit - first < service.image.block_words;
    if (!is_gone)
        return link(exit, target);
    synchronize();
    return address_of(target);
}

uint32_t service_origin(uint32_t pc)
{
    const struct image *image = &service.image;
    uint32_t slot = slot_at(index_of(pc));
    uint32_t offset = index_of(pc) - first_of_slot(slot);
    uint32_t block = service.slots[slot].block;
    uint32_t word = image->starts[block];
    uint32_t end = block + 1 < image->blocks ? image->starts[block + 1] : image->text_words;
    while (word + 1 < end && image->offsets[word + 1] <= offset)
        word++;
    return image->base + 4 * word;
}

/* The word of the image at `pc`: that of the cache, but for what was patched there. */
static const uint32_t *image_word_at(uint32_t pc)
{
    uint32_t index = index_of(pc), slot = slot_at(index);
    uint32_t begin = block_begin(&service.image, service.slots[slot].block);
    return service.image.words + begin + index - first_of_slot(slot);
}

/*
 * Each rendering can be begun again at any of its words: what comes before its last one is LUI and ADDI of constants
 * alone. At a direct exit, linked or not, its instruction is done, and control is on the way to the descriptor.
 */
uint32_t service_resume(uint32_t pc)
{
    const uint32_t *word = image_word_at(pc);
    bool is_behind_replaced = word > service.image.words && word[-1] == EBREAK && word[0] % 4 == 1;
    if (is_behind_replaced)
        return word[0] - 1 + 4;
    return word[0] == EBREAK && word[1] % 4 == 0 ? word[1] : service_origin(pc);
}

/* Puts two words in place of an exit for a word of the text, which are not the block's last. */
SHARED static void put_in_place(uint32_t pc, uint32_t first, uint32_t second)
{
    uint32_t exit = index_of(pc), slot = slot_at(exit);
    if (exit + 2 - first_of_slot(slot) >= block_length(&service.image, service.slots[slot].block))
        return;
    service.cache[exit].bits = first;
    service.cache[exit + 1].bits = second;
    synchronize();
}

void service_replace(uint32_t pc, uint32_t word)
{
    put_in_place(pc, word, NOP);
}

void service_mark(uint32_t pc, uint32_t word)
{
    put_in_place(pc, EBREAK, word);
}

SLOW struct counts service_counts(void)
{
    struct counts counts = service.counts;
    counts.services = frame.services;
    return counts;
}

/* Exits */

/* The fields of JALR (section 2.5: the I format). */
static uint32_t rd_of(uint32_t jalr)
{
    return jalr >> 7 & 31;
}

static uint32_t rs1_of(uint32_t jalr)
{
    return jalr >> 15 & 31;
}

static uint32_t immediate_of(uint32_t jalr)
{
    return jalr >> 20 | (0 - (jalr >> 31)) << 12;
}

/* An exit whose target is no text word, or an EBREAK that is none of the cache. */
SLOW static uint32_t refuse_exit(uint32_t pc, uint32_t target)
{
    return service_holds(pc) ? board_fault(FAULT_FETCH_ACCESS, target, target) : board_trap(&frame, pc, CAUSE_BREAKPOINT);
}

uint32_t service_exit(uint32_t pc, uint32_t target)
{
    uint32_t distance = target - frame.text_base;
    if (!service_holds(pc) || distance >= frame.text_bytes)
        return refuse_exit(pc, target);
    uint32_t place = place_of(distance / 4), first = first_of(block_of_place(place));
    frame.services++;
    return first ? link(index_of(pc), first - 1 + offset_of_place(place)) : leave_by(index_of(pc), place);
}

/* Puts a target into the memo of the vector, which does so itself where it finds one. */
static void remember(uint32_t target, uint32_t place)
{
#ifdef SERVE_IN_VECTOR
    (void)target, (void)place;
#else
    uint32_t entry = target / 4 % MEMO_ENTRIES;
    frame.memo_targets[entry] = target;
    frame.memo_places[entry] = place;
    frame.memo_filled = 1;
#endif
}

/* A jump to an address that is no multiple of 4. */
SLOW static uint32_t refuse_misaligned(uint32_t pc, uint32_t target)
{
    return board_fault(FAULT_FETCH_MISALIGNED, service_origin(pc), target);
}

/* A word of the text that traps: the image has its address, plus 1, behind the exit. */
SHARED static uint32_t serve_word(struct frame *registers, uint32_t pc)
{
    return board_word(registers, pc, image_word_at(pc)[1] - 1);
}

uint32_t service_jump(struct frame *registers, uint32_t pc, uint32_t target)
{
    const union word *exit = service.cache + index_of(pc);
    uint32_t rd = rd_of(exit[1].bits), linked = exit[2].bits;
    if (target % 4 != 0)
        return refuse_misaligned(pc, target);
    if (rd)
        registers->x[rd] = linked;
    uint32_t to = service_enter(target);
    if (!to)
        return board_fault(FAULT_FETCH_ACCESS, target, target);
    remember(target, to);
    registers->services++;
    return to;
}

/* An exit whose descriptor is the JALR itself; the value that it links stands behind it. */
static uint32_t serve_register(struct frame *registers, uint32_t pc, uint32_t jalr)
{
    return service_jump(registers, pc, (registers->x[rs1_of(jalr)] + immediate_of(jalr)) & ~1u);
}

uint32_t service_trap(struct frame *registers, uint32_t pc, uint32_t cause)
{
    if (cause != CAUSE_BREAKPOINT || !service_holds(pc))
        return board_trap(registers, pc, cause);
    uint32_t descriptor = service.cache[index_of(pc) + 1].bits;
    if ((descriptor & 7) == 7)
        return serve_register(registers, pc, descriptor);
    if (descriptor % 4 == 0)
        return service_exit(pc, descriptor);
    return descriptor % 4 == 2 ? refuse_misaligned(pc, descriptor) : serve_word(registers, pc);
}

/* The start */

SLOW static void clear_tables(const struct service_memory *memory)
{
    for (uint32_t slot = 0; slot < service.slot_count; slot++)
        memory->slots[slot] = (struct slot){0, 0, 0};
    for (uint32_t block = 0; memory->marks && block < service.image.blocks; block++)
        memory->marks[block] = 0;
}

SLOW void service_start(const struct image *image, const struct service_memory *memory, uint32_t *cache, uint32_t slots,
                        uint32_t links_most)
{
    service.image = *image;
    service.cache = (union word *)cache;
    service.slots = memory->slots;
    service.slot_count = slots;
    service.bytes = 4 * slots * image->block_words;
    service.links_most = links_most;
    clear_tables(memory);
    forget_targets();
    frame.text_base = image->base;
    frame.text_bytes = 4 * image->text_words;
    frame.places = memory->places;
    frame.marks = memory->marks;
    frame.block_words = image->block_words;
#ifdef BYTE_TABLE
    frame.before_cache = address_of(0) - 4 * image->block_words;
#else
    frame.before_cache = address_of(0) - 4;
#endif
}
