/*
 * A plain model of what service.c has to do: slots that are filled in order and taken again in this order, and a set of
 * links. Beside it stand what the service is given and what it has, and `compare` of the two.
 *
 * Whoever includes this file says BLOCKS_MOST, WORDS_MOST (of a block), SLOTS_MOST, and what equal(what, found,
 * expected) does.
 */
#include "../places.c"
#include "../service.c"

#define TEXT_BASE 0x10000u
#define NONE 0xffffffffu
#define IMAGE_WORDS_MOST (BLOCKS_MOST * WORDS_MOST)
#define CACHE_WORDS (SLOTS_MOST * WORDS_MOST)

struct frame frame;

/* What begins at a word of an image, and how many words it takes; REST is a further word of it. */
enum kind { PLAIN, DIRECT, REGISTER, UNALIGNED, TRAPPING, REST };
static const uint32_t sizes[] = {1, 2, 3, 2, 2, 1};

/* The image. */
static struct image image;
static uint32_t starts[BLOCKS_MOST], ends[BLOCKS_MOST];
static uint32_t offsets[IMAGE_WORDS_MOST], words[IMAGE_WORDS_MOST], places[IMAGE_WORDS_MOST];
static enum kind kinds[IMAGE_WORDS_MOST];

/* What the service has. */
static union word cache[CACHE_WORDS];
static struct slot slots[SLOTS_MOST];
static block_mark marks[BLOCKS_MOST];

/* What it has to have: of each slot the block; of each word of the cache the index that a link leads to, and the word
 * that was put in place of an exit, or 0. */
static struct {
    uint32_t slots, links_most, next;
    uint32_t block[SLOTS_MOST], link[CACHE_WORDS], replaced[CACHE_WORDS];
    struct counts counts;
} model;

/* What the front was told last, and how often anything; and where it goes on. */
#define GOES_ON 0x80u
enum told_of { TOLD_FAULT, TOLD_TRAP, TOLD_WORD };
static struct {
    uint32_t count, of, fault_or_cause, pc, address;
} told;

static uint32_t tell(enum told_of of, uint32_t fault_or_cause, uint32_t pc, uint32_t address)
{
    told.count++;
    told.of = of;
    told.fault_or_cause = fault_or_cause;
    told.pc = pc;
    told.address = address;
    return GOES_ON;
}

uint32_t board_fault(enum fault fault, uint32_t pc, uint32_t address)
{
    return tell(TOLD_FAULT, fault, pc, address);
}

uint32_t board_trap(struct frame *registers, uint32_t pc, uint32_t cause)
{
    (void)registers;
    return tell(TOLD_TRAP, cause, pc, 0);
}

uint32_t board_word(struct frame *registers, uint32_t pc, uint32_t address)
{
    (void)registers;
    return tell(TOLD_WORD, 0, pc, address);
}

void board_poll(void)
{
}

static uint32_t text_of(uint32_t word)
{
    return TEXT_BASE + 4 * word;
}

static uint32_t size(void)
{
    return image.block_words;
}

static uint32_t first_word(uint32_t block)
{
    return block ? ends[block - 1] : 0;
}

static uint32_t length_of(uint32_t block)
{
    return ends[block] - first_word(block);
}

static uint32_t block_at(uint32_t text_word)
{
    uint32_t block = image.blocks - 1;
    while (starts[block] > text_word)
        block--;
    return block;
}

/* The service and the model of an image, without a block in the cache. */
static void start(uint32_t slot_count, uint32_t links_most)
{
    struct service_memory tables = {slots, marks, places};
#ifdef SCAN
    tables.marks = NULL;
#endif
#ifdef SEARCH
    tables.places = NULL;
#endif
    service_fill_places(&image, places);
    service_start(&image, &tables, &cache[0].bits, slot_count, links_most);
    model.slots = slot_count;
    model.links_most = links_most;
    model.next = 0;
    for (uint32_t slot = 0; slot < SLOTS_MOST; slot++)
        model.block[slot] = NONE;
    for (uint32_t k = 0; k < CACHE_WORDS; k++) {
        model.link[k] = NONE;
        model.replaced[k] = 0;
    }
}

/* What a call has to do */

static uint32_t slot_of(uint32_t block)
{
    for (uint32_t slot = 0; slot < model.slots; slot++)
        if (model.block[slot] == block)
            return slot;
    return NONE;
}

static bool leads_into(uint32_t index, uint32_t slot)
{
    return model.link[index] - slot * size() < size(); /* not so where it is NONE */
}

static uint32_t links_into(uint32_t slot)
{
    uint32_t count = 0;
    for (uint32_t k = 0; k < model.slots * size(); k++)
        count += leads_into(k, slot);
    return count;
}

static void model_evict(uint32_t slot)
{
    for (uint32_t k = slot * size(); k < (slot + 1) * size(); k++) {
        model.link[k] = NONE;
        model.replaced[k] = 0;
    }
    model.counts.unlinks += links_into(slot);
    for (uint32_t k = 0; k < model.slots * size(); k++)
        if (leads_into(k, slot))
            model.link[k] = NONE;
    model.counts.evictions++;
}

/* The index where a text word stands, its block copied. */
static uint32_t model_find(uint32_t text_word)
{
    uint32_t block = block_at(text_word), slot = slot_of(block);
    if (slot == NONE) {
        slot = model.next;
        if (model.block[slot] != NONE)
            model_evict(slot);
        model.block[slot] = block;
        model.next = slot + 1 == model.slots ? 0 : slot + 1;
        model.counts.misses++;
        model.counts.copied += length_of(block);
    }
    return slot * size() + offsets[text_word];
}

static uint32_t model_leave(uint32_t exit, uint32_t text_word)
{
    uint32_t before = model.counts.misses, to = model_find(text_word);
    model.counts.services++;
    if (model.counts.misses != before && to / size() == exit / size())
        return to;
    if (links_into(to / size()) == model.links_most) {
        model.counts.refused++;
        return to;
    }
    model.link[exit] = to;
    model.counts.links++;
    return to;
}

/* Comparisons */

static uint32_t given_at(uint32_t index)
{
    return first_word(model.block[index / size()]) + index % size();
}

static bool is_filled(uint32_t index)
{
    uint32_t block = model.block[index / size()];
    return block != NONE && index % size() < length_of(block);
}

/* Whether an exit stands at an index of the cache, and is neither linked nor replaced. */
static bool is_exit(uint32_t index)
{
    return is_filled(index) && model.link[index] == NONE && !model.replaced[index] && kinds[given_at(index)] != PLAIN &&
           kinds[given_at(index)] != REST;
}

static void compare_words(uint32_t slot)
{
    uint32_t block = model.block[slot];
    for (uint32_t k = 0; block != NONE && k < length_of(block); k++) {
        uint32_t index = slot * size() + k, word = cache[index].bits;
        if (model.link[index] != NONE) {
            equal("a link is a JAL", is_link(cache[index]), true);
            equal("the target of a link", target_of(index, word), model.link[index]);
            k++; /* the list's neighbours stand behind it */
        } else if (model.replaced[index]) {
            equal("a word in place of an exit", word, model.replaced[index]);
            equal("the word behind it", cache[index + 1].bits, NOP);
            k++;
        } else {
            equal("a word of a block", word, words[first_word(block) + k]);
        }
    }
}

static void compare_list(uint32_t slot)
{
    uint32_t previous = 0, count = 0;
    for (uint32_t at = slots[slot].first_link; at; at = cache[at].link.next) {
        equal("a list's link is a word of the cache", at < model.slots * size(), true);
        equal("a list's link leads into its slot", leads_into(at - 1, slot), true);
        equal("the neighbour before", cache[at].link.previous, previous);
        equal("the list has an end", ++count <= CACHE_WORDS / 2, true);
        previous = at;
    }
    equal("the length of a list", count, links_into(slot));
    equal("the number of links", slots[slot].links, count);
}

static void compare_memo(uint32_t entry)
{
    uint32_t target = frame.memo_targets[entry];
    if (target / 4 % MEMO_ENTRIES != entry) /* an empty one */
        return;
    equal("a target of the memo", target % 4 == 0 && target - TEXT_BASE < 4 * image.text_words, true);
    equal("the memo is not empty", frame.memo_filled != 0, true);
    uint32_t word = (target - TEXT_BASE) / 4, slot = slot_of(block_at(word));
    equal("a target of the memo has a slot", slot != NONE, true);
    equal("a place of the memo", frame.memo_places[entry], address_of(slot * size() + offsets[word]));
}

static void compare_tables(void)
{
    equal("the slot of the next miss", service.next_slot, model.next);
    equal("whether all slots are filled", service.is_full, model.block[model.slots - 1] != NONE);
    for (uint32_t slot = 0; slot < model.slots; slot++)
        if (model.block[slot] != NONE)
            equal("the block of a slot", slots[slot].block, model.block[slot]);
    for (uint32_t block = 0; block < image.blocks && frame.marks; block++) {
        uint32_t slot = slot_of(block);
#ifdef BYTE_TABLE
        uint32_t placed = slot + 1;
#else
        uint32_t placed = slot * size() + 1;
#endif
        equal("the place of a block", marks[block], slot == NONE ? 0 : placed);
    }
    for (uint32_t entry = 0; entry < MEMO_ENTRIES; entry++)
        compare_memo(entry);
}

static void compare_counts(void)
{
    struct counts found = service_counts();
    equal("services", found.services, model.counts.services);
    equal("misses", found.misses, model.counts.misses);
    equal("evictions", found.evictions, model.counts.evictions);
    equal("links", found.links, model.counts.links);
    equal("unlinks", found.unlinks, model.counts.unlinks);
    equal("copied words", found.copied, model.counts.copied);
    equal("refused links", found.refused, model.counts.refused);
}

static void compare(void)
{
    for (uint32_t slot = 0; slot < model.slots; slot++) {
        compare_words(slot);
        compare_list(slot);
    }
    compare_tables();
    compare_counts();
}
