/* qemu's "virt" as a microcontroller. The first 64 KiB of flash and the upper 16 of RAM are the cache's runtime's. */
OUTPUT_ARCH(riscv)
ENTRY(reset)
MEMORY
{
  flash (rx) : ORIGIN = 0x20010000, LENGTH = 1M
  ram (rwx)  : ORIGIN = 0x80000000, LENGTH = 48K
}
__stack_bytes = 4096;
INCLUDE sections.ld
