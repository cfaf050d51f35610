/* qemu's board "virt" as a microcontroller: flash at 20000000, and the upper 16 of 64 KiB of RAM at 80000000. */
OUTPUT_ARCH(riscv)
ENTRY(swicache_start)
MEMORY
{
  flash (rx) : ORIGIN = 0x20000000, LENGTH = 64K    /* the firmware's own begins behind it */
  image (r)  : ORIGIN = 0x20200000, LENGTH = 30M
  ram (rwx)  : ORIGIN = 0x8000c000, LENGTH = 16K    /* the firmware has what is below */
}
REGION_ALIAS("SWICACHE_FLASH", flash)
REGION_ALIAS("SWICACHE_IMAGE", image)
REGION_ALIAS("SWICACHE_FAST", ram)
REGION_ALIAS("SWICACHE_CACHE", ram)
SECTIONS
{
  INCLUDE swicache.ld
  /DISCARD/ : { *(.comment) *(.note .note.*) *(.eh_frame .eh_frame_hdr) *(.riscv.attributes) }
}
