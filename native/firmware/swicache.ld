/*
 * The parts of libswicache.a, to be included in SECTIONS of a board's linker script. The script names four regions by
 * REGION_ALIAS, which may be the same one twice:
 *
 *   SWICACHE_FLASH   the start, what runs at the start alone, and the first copy of the fast part
 *   SWICACHE_IMAGE   the header, the image and the table of places: flash
 *   SWICACHE_FAST    vector, service, stack and tables: memory as fast as the cache, that may be written and executed
 *   SWICACHE_CACHE   the cache: memory that may be written and executed
 *
 * SWICACHE_CACHE_BYTES and SWICACHE_TABLES_BYTES are told by native/pack (tables: 8 for a slot, 2 for a block).
 */
.swicache_slow : ALIGN(4)
{
  swicache_slow = .;
  KEEP(*(.swicache.start))
  *(.swicache.first)
  swicache_first_end = .;
  *(.text.slow .text.slow.*)
  *places.o(.text .text.*)
  *image.o(.text .text.* .rodata .rodata.*)
  *swi_chip.o(.text.chip_places .text.chip_start .text.chip_put)
  *libc.o(.text .text.*)
  *start_c.o(.text .text.* .rodata .rodata.*)
  *other.o(.text .text.* .rodata .rodata.*)
  *pmp.o(.text .text.* .rodata .rodata.*)
  *board.o(.text .text.* .rodata .rodata.* .srodata .srodata.*)
  . = ALIGN(4);
  swicache_slow_end = .;
} >SWICACHE_FLASH
.swicache_fast : ALIGN(4)
{
  swicache_fast = .;
  *trap.o(.text.trap)
  *service.o(.text .text.* .rodata .rodata.*)
  *swi_chip.o(.text .text.*)
  swicache_machine = .;
  *machine_s.o(.text .text.*)
  *machine.o(.text .text.* .rodata .rodata.*)
  . = ALIGN(4);
  swicache_fast_end = .;
} >SWICACHE_FAST AT>SWICACHE_FLASH
swicache_fast_in_flash = LOADADDR(.swicache_fast);
.swicache_image : ALIGN(4) { KEEP(*(.swicache.image)) } >SWICACHE_IMAGE
.swicache_data (NOLOAD) : ALIGN(16)
{
  swicache_data = .;
  *trap.o(.bss.frame)
  *(.sbss .sbss.* .bss .bss.* COMMON)
  . = ALIGN(8);
  swicache_data_end = .;
} >SWICACHE_FAST
.swicache_tables (NOLOAD) : ALIGN(8)
{
  swicache_tables = .;
  . += SWICACHE_TABLES_BYTES;
  . = ALIGN(4);
  swicache_tables_end = .;
} >SWICACHE_FAST
.swicache_cache (NOLOAD) : ALIGN(4)
{
  swicache_cache = .;
  . += SWICACHE_CACHE_BYTES;
  swicache_cache_end = .;
} >SWICACHE_CACHE
/* The runtime's RAM, for native/pack. */
swicache_ram = ORIGIN(SWICACHE_FAST);
swicache_ram_end = ORIGIN(SWICACHE_FAST) + LENGTH(SWICACHE_FAST);
swicache_cache_ram = ORIGIN(SWICACHE_CACHE);
swicache_cache_ram_end = ORIGIN(SWICACHE_CACHE) + LENGTH(SWICACHE_CACHE);
