/* The start of a firmware that stands in flash, and the runtime's end. It runs where it stands, in flash. */
#include <stddef.h>
#include "firmware.h"

_Static_assert(sizeof(struct firmware) == 52, "native/pack writes the header");

/* What runs before its own sum is known, and what stops where one is wrong: firmware/swicache.ld has it in front. */
#define FIRST __attribute__((section(".swicache.first"), noinline))

struct stop swicache_stop;

FIRST __attribute__((weak)) void board_stopped(const struct stop *stop)
{
    (void)stop;
}

FIRST void firmware_stop(enum stop_reason reason, uint32_t pc, uint32_t address)
{
    swicache_stop = (struct stop){reason, pc, address};
    board_stopped(&swicache_stop);
    for (;;)
        __asm__ volatile("wfi" ::: "memory");
}

/* CRC-32, as zlib has it, of `count` words that stand behind others whose own is `before`. */
FIRST static uint32_t crc_of(uint32_t before, const uint32_t *at, uint32_t count)
{
    uint32_t crc = ~before;
    for (const uint32_t *end = at + count; at != end; at++) {
        crc ^= *at;
        crc = crc >> 8 ^ crc_table[crc & 255];
        crc = crc >> 8 ^ crc_table[crc & 255];
        crc = crc >> 8 ^ crc_table[crc & 255];
        crc = crc >> 8 ^ crc_table[crc & 255];
    }
    return ~crc;
}

static uint32_t words_between(const uint32_t *begin, const uint32_t *end)
{
    return (uint32_t)(end - begin);
}

/* The header, whose numbers are used where its own sum is right alone, and what runs in flash. */
FIRST void firmware_check(void)
{
    const struct firmware *firmware = &swicache_firmware;
    if (firmware->magic != FIRMWARE_MAGIC)
        firmware_stop(STOP_NO_FIRMWARE, 0, (uint32_t)firmware);
    if (crc_of(0, &firmware->magic, offsetof(struct firmware, header_sum) / 4) != firmware->header_sum ||
        crc_of(0, swicache_slow, words_between(swicache_slow, swicache_slow_end)) != firmware->slow_sum)
        firmware_stop(STOP_DAMAGED, 0, (uint32_t)firmware);
}

/* The fast part where it was copied to, and all that is read of the firmware. */
static bool is_whole(const struct firmware *firmware)
{
    uint32_t sum = crc_of(0, swicache_image, words_between(swicache_image, swicache_places_end));
    return crc_of(0, swicache_fast, words_between(swicache_fast, swicache_fast_end)) == firmware->fast_sum &&
           crc_of(sum, firmware->text, firmware->text_words) == firmware->sum;
}

static void read_image(struct image *image)
{
    const struct firmware *firmware = &swicache_firmware;
    if (!is_whole(firmware))
        firmware_stop(STOP_DAMAGED, 0, (uint32_t)firmware);
    struct image_error error = image_read(image, swicache_image, (uint32_t)(swicache_places - swicache_image));
    if (error.number)
        firmware_stop(STOP_IMAGE, error.number, error.word);
}

/* The linker has placed tables and cache by the sizes that `pack` told it. */
static void start_service(const struct image *image)
{
    uint32_t slots = (uint32_t)(swicache_cache_end - swicache_cache) / image->block_words;
    struct slot *at = (struct slot *)(void *)swicache_tables;
    struct service_memory memory = {
        .slots = at,
        .marks = (block_mark *)(at + slots),
        .places = swicache_places,
    };
    uint32_t end = (uint32_t)(memory.marks + image->blocks);
    if (!slots || slots > CACHE_SLOTS_MOST || slots * image->block_words > CACHE_WORDS_MOST || end > (uint32_t)swicache_tables_end)
        firmware_stop(STOP_ROOM, slots, image->blocks);
    service_start(image, &memory, swicache_cache, slots, swicache_firmware.links_most);
}

/* The runtime leaves gp as it is, so what a native start has set there is the program's. */
static void call_native_start(void)
{
    if (!swicache_firmware.native_start)
        return;
    swicache_firmware.native_start();
    __asm__ volatile("mv %0, gp" : "=r"(frame.x[3]));
}

void firmware_start(void)
{
    static struct image image;
    read_image(&image);
    start_service(&image);
    machine_start(&swicache_firmware);
    call_native_start();
    uint32_t entry = service_enter(swicache_firmware.entry);
    if (!entry)
        firmware_stop(STOP_ENTRY, 0, swicache_firmware.entry);
    __asm__ volatile("csrs mstatus, %0; csrw mepc, %1" ::"r"(3 << 11), "r"(entry)); /* MPP: machine mode */
}
