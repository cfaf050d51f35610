/* One segment that may be written and executed, as -N links it. */
OUTPUT_ARCH(riscv)
ENTRY(_start)
PHDRS { all PT_LOAD FLAGS(7); }
SECTIONS
{
  . = DEFINED(TEXT_BASE) ? TEXT_BASE : 0x10000;
  .text : { *(.text .text.*) *(.data .data.*) . = ALIGN(16); } :all
  /DISCARD/ : { *(.riscv.attributes) }
}
