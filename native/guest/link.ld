/* The runtime on qemu's board "virt": the first 64 KiB of its RAM (board.h has the map). */
OUTPUT_ARCH(riscv)
ENTRY(_start)
MEMORY { runtime (rwx) : ORIGIN = 0x80000000, LENGTH = 0x10000 }
SECTIONS
{
  .text : { KEEP(*(.text.start)) *(.text.trap) *(.text .text.*) } >runtime
  .rodata : { *(.rodata .rodata.* .srodata .srodata.*) } >runtime
  .data : ALIGN(4) { *(.data .data.* .sdata .sdata.*) } >runtime
  .bss (NOLOAD) : ALIGN(16)
  {
    __bss = .;
    *(.sbss .sbss.* .bss .bss.* COMMON)
    . = ALIGN(16);
    __bss_end = .;
  } >runtime
  /DISCARD/ : { *(.comment) *(.note .note.*) *(.eh_frame .eh_frame_hdr) *(.riscv.attributes) }
}
