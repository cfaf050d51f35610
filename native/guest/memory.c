/*
 * The program's memory: its regions, and how the board keeps it within them.
 *
 * With PMP or without anything, each address is what it says, and the program was linked for the board's RAM. With
 * pages (Sv32) a program stands at any addresses; they serve for tests.
 */
#include "board.h"

#define REGIONS_MOST 66u /* 64 segments, heap and stack */
#define PMP_ENTRIES 16u

enum { PAGE_VALID = 1, PAGE_READ = 2, PAGE_WRITE = 4, PAGE_EXECUTE = 8, PAGE_USER = 16, PAGE_TOUCHED = 0xc0 };
enum { PMP_READ = 1, PMP_WRITE = 2, PMP_EXECUTE = 4, PMP_RANGE = 8 }; /* TOR, in the range's second entry */

struct region {
    uint32_t base, size, rights;
};

static struct {
    enum protection protection;
    uint32_t cache_bytes;
    uint32_t region_count;
    struct region regions[REGIONS_MOST];
    uint32_t *root;
    uint32_t next_page;
    uint32_t pmp_count;
    uint32_t pmp_addresses[PMP_ENTRIES];
    uint32_t pmp_configurations[PMP_ENTRIES / 4];
} memory;

/* Pages (Privileged Architecture, Sv32). The board's RAM is 0 at the start. */

static uint32_t take_page(void)
{
    uint32_t page = memory.next_page;
    if (page >= PAGES_END)
        refuse(STATUS_BOARD, "native: no pages left");
    memory.next_page += 4096;
    return page;
}

static uint32_t *page_of(uint32_t entry)
{
    return (uint32_t *)(entry >> 10 << 12);
}

static uint32_t *entry_of(uint32_t address)
{
    uint32_t *table = &memory.root[address >> 22];
    if (!*table)
        *table = take_page() >> 2 | PAGE_VALID;
    return page_of(*table) + (address >> 12 & 1023);
}

/* Whether a page that may be written is text as a whole: its words are read alone, so that a store is noticed. */
static bool is_text_page(uint32_t address)
{
    if (!touches_text(address, 4096))
        return false;
    if (!touches_text(address, 1) || !touches_text(address + 4095, 1))
        refuse(STATUS_BOARD, "native: text, and data that may be written, share a page of 4096 bytes: link them apart");
    return true;
}

static void map_page(uint32_t address, uint32_t rights)
{
    uint32_t *entry = entry_of(address);
    if (address + 4096 > CACHE && address < CACHE + memory.cache_bytes)
        refuse(STATUS_BOARD, "native: the program has the cache's addresses");
    if (!*entry)
        *entry = take_page() >> 2 | PAGE_VALID | PAGE_USER | PAGE_TOUCHED;
    if (rights & (RIGHT_READ | RIGHT_WRITE))
        *entry |= PAGE_READ;
    if (rights & RIGHT_WRITE && !is_text_page(address))
        *entry |= PAGE_WRITE;
}

static void map_region(uint32_t base, uint32_t size, uint32_t rights)
{
    uint32_t count = (base % 4096 + size + 4095) / 4096;
    for (uint32_t k = 0; k < count; k++)
        map_page((base & ~4095u) + 4096 * k, rights);
}

static void map_cache(void)
{
    for (uint32_t at = CACHE; at < CACHE + memory.cache_bytes; at += 4096)
        *entry_of(at) = at >> 2 | PAGE_VALID | PAGE_EXECUTE | PAGE_USER | PAGE_TOUCHED;
    uint32_t satp = 0x80000000u | (uint32_t)memory.root >> 12;
    __asm__ volatile("csrw satp, %0; sfence.vma" ::"r"(satp) : "memory");
}

/* Physical memory protection (Privileged Architecture, PMP): a range takes two entries. */

static void grant(uint32_t from, uint32_t to, uint32_t rights)
{
    uint32_t last = memory.pmp_count + 1;
    if (last >= PMP_ENTRIES)
        refuse(STATUS_BOARD, "native: more regions than PMP entries");
    memory.pmp_addresses[last - 1] = from >> 2;
    memory.pmp_addresses[last] = to >> 2;
    memory.pmp_configurations[last / 4] |= (rights | PMP_RANGE) << last % 4 * 8;
    memory.pmp_count += 2;
}

#define WRITE(csr, value) __asm__ volatile("csrw " csr ", %0" ::"r"(value))

static void write_pmp(void)
{
    const uint32_t *addresses = memory.pmp_addresses, *configurations = memory.pmp_configurations;
    WRITE("pmpaddr0", addresses[0]);
    WRITE("pmpaddr1", addresses[1]);
    WRITE("pmpaddr2", addresses[2]);
    WRITE("pmpaddr3", addresses[3]);
    WRITE("pmpaddr4", addresses[4]);
    WRITE("pmpaddr5", addresses[5]);
    WRITE("pmpaddr6", addresses[6]);
    WRITE("pmpaddr7", addresses[7]);
    WRITE("pmpaddr8", addresses[8]);
    WRITE("pmpaddr9", addresses[9]);
    WRITE("pmpaddr10", addresses[10]);
    WRITE("pmpaddr11", addresses[11]);
    WRITE("pmpaddr12", addresses[12]);
    WRITE("pmpaddr13", addresses[13]);
    WRITE("pmpaddr14", addresses[14]);
    WRITE("pmpaddr15", addresses[15]);
    WRITE("pmpcfg0", configurations[0]);
    WRITE("pmpcfg1", configurations[1]);
    WRITE("pmpcfg2", configurations[2]);
    WRITE("pmpcfg3", configurations[3]);
}

static uint32_t pmp_rights(uint32_t rights)
{
    return (rights & RIGHT_READ ? PMP_READ : 0) | (rights & RIGHT_WRITE ? PMP_READ | PMP_WRITE : 0);
}

static void grant_if_any(uint32_t from, uint32_t to, uint32_t rights)
{
    if (rights && from < to)
        grant(from, to, rights);
}

/* A range of the program. Text that may be written is read alone: a store into it ends the program, as in the model. */
static void grant_range(uint32_t from, uint32_t to, uint32_t rights)
{
    bool is_text = rights & RIGHT_WRITE && touches_text(from, to - from);
    uint32_t data = is_text ? text_end() : from;
    grant_if_any(from, data, PMP_READ);
    grant_if_any(data, to, pmp_rights(rights));
}

/* Regions that adjoin with the same rights are one range, since an access may lie across. */
static void grant_regions(void)
{
    for (uint32_t first = 0, count; first < memory.region_count; first += count) {
        const struct region *regions = memory.regions + first;
        uint32_t end = regions[0].base + regions[0].size;
        for (count = 1; first + count < memory.region_count && regions[count].base == end &&
                        regions[count].rights == regions[0].rights;
             count++)
            end += regions[count].size;
        grant_range(regions[0].base, end, regions[0].rights);
    }
}

/* Regions */

void memory_start(enum protection protection, uint32_t cache_bytes)
{
    memory.protection = protection;
    memory.cache_bytes = cache_bytes;
    memory.next_page = PAGES;
    memory.root = page_of(take_page() >> 2);
}

void memory_add(uint32_t base, uint32_t size, uint32_t rights)
{
    if (!size)
        return;
    memory.regions[memory.region_count++] = (struct region){base, size, rights};
    if (memory.protection == PROTECTION_NONE && rights & RIGHT_WRITE && touches_text(base, size))
        refuse(STATUS_BOARD, "native: the text may be written, which nothing would notice in machine mode");
    if (memory.protection == PROTECTION_PAGES)
        map_region(base, size, rights);
    else if (base < PROGRAM || base > PROGRAM_END || size > PROGRAM_END - base)
        refuse(STATUS_BOARD, "native: linked for other addresses than the board's");
}

void memory_protect(void)
{
    switch (memory.protection) {
    case PROTECTION_PAGES:
        map_cache();
        grant(0, 0xffffffff, PMP_READ | PMP_WRITE | PMP_EXECUTE);
        break;
    case PROTECTION_PMP:
        grant(CACHE, CACHE + memory.cache_bytes, PMP_EXECUTE);
        grant_regions();
        break;
    case PROTECTION_NONE:
        return;
    }
    write_pmp();
}

/* The bytes from an address on that stand in a region with this right; 0 where there is none. */
static uint32_t allowed(uint32_t address, enum right right)
{
    for (uint32_t k = 0; k < memory.region_count; k++) {
        const struct region *region = &memory.regions[k];
        if (address - region->base < region->size && region->rights & right)
            return region->size - (address - region->base);
    }
    return 0;
}

bool memory_allows(uint32_t address, uint32_t count, enum right right)
{
    while (count) {
        uint32_t there = allowed(address, right);
        if (there >= count)
            return true;
        address += there;
        count -= there;
        if (!there || !address) /* no access goes round the end of memory */
            return false;
    }
    return true;
}

uint8_t *memory_at(uint32_t address)
{
    if (memory.protection != PROTECTION_PAGES)
        return (uint8_t *)address;
    return (uint8_t *)page_of(*entry_of(address)) + address % 4096;
}

uint32_t memory_piece(uint32_t address, uint32_t count)
{
    uint32_t piece = memory.protection == PROTECTION_PAGES ? 4096 - address % 4096 : count;
    return piece < count ? piece : count;
}

uint32_t memory_word(uint32_t address)
{
    uint32_t word = 0;
    for (uint32_t k = 4; k-- > 0;)
        word = word << 8 | *memory_at(address + k);
    return word;
}
