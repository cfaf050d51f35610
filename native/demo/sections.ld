/* The sections of a firmware, as a vendor's script has them: text and constants in flash, data in RAM with its first
   values in flash. Code that interrupts may execute in flash stands between __native and __native_end. */
PHDRS { text PT_LOAD FLAGS(5); data PT_LOAD FLAGS(6); uart PT_LOAD FLAGS(6); }
SECTIONS
{
  .text :
  {
    KEEP(*(.text.reset))
    __native = .;
    KEEP(*(.text.native))
    __native_end = .;
    *(.text .text.*)
    *(.rodata .rodata.* .srodata .srodata.*)
    . = ALIGN(4);
  } >flash :text
  .data : ALIGN(4)
  {
    __data = .;
    *(.data .data.*)
    __global_pointer$ = . + 0x800;
    *(.sdata .sdata.*)
    . = ALIGN(4);
    __data_end = .;
  } >ram AT>flash :data
  __data_in_flash = LOADADDR(.data);
  .bss (NOLOAD) : ALIGN(4)
  {
    __bss = .;
    *(.sbss .sbss.* .bss .bss.* COMMON)
    . = ALIGN(16);
    __bss_end = .;
    . += __stack_bytes;
    __stack = .;
  } >ram :data
  .uart 0x10000000 : { KEEP(*(.stub.uart)) } :uart
  /DISCARD/ : { *(.comment) *(.note .note.*) *(.eh_frame) *(.riscv.attributes) }
}
