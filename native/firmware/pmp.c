/*
 * Physical memory protection (The RISC-V Instruction Set Manual, Volume II, section 3.7) holds in machine mode for entries
 * that are locked: one over the cache or the runtime would stop both without a word. It runs in flash, before the
 * firmware's instruction is executed.
 */
#include "firmware.h"

enum { PMPCFG0 = 0x3a0, PMPADDR0 = 0x3b0, ENTRIES_OF_ONE = 4 };
enum { PERMISSIONS = 7, LOCK = 1 << 7, FORM_SHIFT = 3 };
enum form { OFF, TOP_OF_RANGE, WORD, POWER_OF_2 };

static const struct {
    const uint32_t *begin, *end;
} parts[] = {
    {swicache_fast, swicache_fast_end},
    {swicache_data, swicache_data_end},
    {swicache_tables, swicache_tables_end},
    {swicache_cache, swicache_cache_end},
};

/* Addresses over 4, as the registers have them. */
struct range {
    uint32_t first, last;
};

/* A CSR; 0 where the processor has none of this number. */
static uint32_t read_csr(uint32_t number)
{
    return machine_try(number << 20 | OPERATION_SET << 12 | 10 << 7 | OPCODE_SYSTEM, 0).value;
}

static uint32_t address_of(uint32_t entry)
{
    return read_csr(PMPADDR0 + entry);
}

static bool is_range(struct range *range, enum form form, uint32_t entry)
{
    uint32_t address = address_of(entry);
    uint32_t ones = form == POWER_OF_2 ? address ^ (address + 1) : 0;
    if (form == OFF)
        return false;
    *range = (struct range){address & ~ones, address | ones};
    if (form == TOP_OF_RANGE)
        *range = (struct range){entry ? address_of(entry - 1) : 0, address - 1};
    return form != TOP_OF_RANGE || range->first < address;
}

static bool is_in_runtime(const struct range *range)
{
    for (uint32_t k = 0; k < sizeof parts / sizeof parts[0]; k++)
        if (range->first < (uint32_t)parts[k].end / 4 && range->last >= (uint32_t)parts[k].begin / 4)
            return true;
    return false;
}

bool pmp_locks_runtime(uint32_t word, uint32_t operand)
{
    uint32_t number = number_of(word), value = changed(read_csr(number), operation_of(word), operand);
    for (uint32_t k = 0; k < ENTRIES_OF_ONE; k++, value >>= 8) {
        struct range range;
        bool is_harmless = !(value & LOCK) || (value & PERMISSIONS) == PERMISSIONS;
        uint32_t entry = ENTRIES_OF_ONE * (number - PMPCFG0) + k;
        if (!is_harmless && is_range(&range, value >> FORM_SHIFT & 3, entry) && is_in_runtime(&range))
            return true;
    }
    return false;
}
