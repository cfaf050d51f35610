/* qemu's board "sifive_e", with the map of an FE310: serial flash at 20000000, and the upper 12 of 16 KiB of RAM. */
OUTPUT_ARCH(riscv)
ENTRY(swicache_start)
MEMORY
{
  flash (rx) : ORIGIN = 0x20400000, LENGTH = 64K    /* where the mask ROM leads */
  image (r)  : ORIGIN = 0x20410000, LENGTH = 1M
  ram (rwx)  : ORIGIN = 0x80001000, LENGTH = 12K    /* the firmware has what is below */
}
REGION_ALIAS("SWICACHE_FLASH", flash)
REGION_ALIAS("SWICACHE_IMAGE", image)
REGION_ALIAS("SWICACHE_FAST", ram)
REGION_ALIAS("SWICACHE_CACHE", ram)
SECTIONS
{
  INCLUDE swicache.ld
  /DISCARD/ : { *(.comment) *(.note .note.*) *(.eh_frame .eh_frame_hdr) *(.riscv.attributes) }
}
