/* Text that a startup would copy from flash to RAM before it runs. */
OUTPUT_ARCH(riscv)
ENTRY(reset)
MEMORY
{
  flash (rx) : ORIGIN = 0x20010000, LENGTH = 1M
  ram (rwx)  : ORIGIN = 0x80000000, LENGTH = 48K
}
SECTIONS
{
  .text : { *(.text.reset) *(.text .text.*) } >ram AT>flash
  .bss (NOLOAD) : { *(.bss .bss.*) } >ram
  /DISCARD/ : { *(.comment) *(.riscv.attributes) }
}
