/* Checksums: CRC-32 by a table and bit by bit, Adler-32, Fletcher-16 and FNV-1a of a buffer, three times over. */
#include "result.h"

enum { BYTES = 4096, ROUNDS = 3 };

static u8 buffer[BYTES];
static u32 table[256];

static u32 crc_step(u32 crc)
{
    return crc >> 1 ^ (crc & 1 ? 0xEDB88320u : 0);
}

static void make_table(void)
{
    for (u32 i = 0; i < 256; i++) {
        u32 crc = i;
        for (u32 bit = 0; bit < 8; bit++)
            crc = crc_step(crc);
        table[i] = crc;
    }
}

static u32 crc_by_table(const u8 *data, u32 count)
{
    u32 crc = ~0u;
    for (u32 i = 0; i < count; i++)
        crc = crc >> 8 ^ table[(crc ^ data[i]) & 255];
    return ~crc;
}

static u32 crc_by_bits(const u8 *data, u32 count)
{
    u32 crc = ~0u;
    for (u32 i = 0; i < count; i++) {
        crc ^= data[i];
        for (u32 bit = 0; bit < 8; bit++)
            crc = crc_step(crc);
    }
    return ~crc;
}

static u32 adler(const u8 *data, u32 count)
{
    u32 low = 1, high = 0;
    for (u32 i = 0; i < count; i++) {
        low = (low + data[i]) % 65521;
        high = (high + low) % 65521;
    }
    return high << 16 | low;
}

static u32 fletcher(const u8 *data, u32 count)
{
    u32 low = 0, high = 0;
    for (u32 i = 0; i < count; i++) {
        low = (low + data[i]) % 255;
        high = (high + low) % 255;
    }
    return high << 8 | low;
}

static u32 fnv(const u8 *data, u32 count)
{
    u32 hash = 2166136261u;
    for (u32 i = 0; i < count; i++)
        hash = (hash ^ data[i]) * 16777619u;
    return hash;
}

int main(void)
{
    static const struct {
        const char *name;
        u32 (*sum)(const u8 *, u32);
    } sums[] = {{"table", crc_by_table}, {"bits", crc_by_bits}, {"adler", adler}, {"fletcher", fletcher}, {"fnv", fnv}};
    u32 state = 1;
    make_table();
    for (u32 i = 0; i < BYTES; i++)
        buffer[i] = (u8)next_random(&state);
    for (u32 k = 0; k < sizeof sums / sizeof *sums; k++) {
        u32 all = 0;
        for (u32 round = 0; round < ROUNDS; round++) {
            buffer[0] = (u8)round;
            all = all * 31 + sums[k].sum(buffer, BYTES);
        }
        write_result(sums[k].name, all);
    }
    return 0;
}
