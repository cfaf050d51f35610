/* An FE310. Flash from 20400000 on and the upper 12 KiB of RAM are the cache's runtime's. */
OUTPUT_ARCH(riscv)
ENTRY(reset)
MEMORY
{
  flash (rx) : ORIGIN = 0x20010000, LENGTH = 3M
  ram (rwx)  : ORIGIN = 0x80000000, LENGTH = 4K
}
__stack_bytes = 1024;
INCLUDE sections.ld
