/* As link.ld, with the constants in a segment of their own: text (read, execute), constants (read), data (read, write).
   Only the text is cut into blocks, so that they take less slow memory, and a constant never moves a block's end. */
OUTPUT_ARCH(riscv)
ENTRY(_start)

PHDRS
{
  text PT_LOAD FLAGS(5);
  constants PT_LOAD FLAGS(4);
  data PT_LOAD FLAGS(6);
}

SECTIONS
{
  . = 0x10000;
  .text :
  {
    *(.text.start)
    *(.text .text.*)
    . = ALIGN(4);
  } :text

  . = ALIGN(4096);
  .rodata :
  {
    *(.rodata .rodata.* .srodata .srodata.*)
    . = ALIGN(4);
  } :constants

  /* The constructors, which start.S calls; picolibc's exit calls the destructors. */
  .init_array :
  {
    __init_array_start = .;
    KEEP(*(SORT_BY_INIT_PRIORITY(.init_array.*)))
    KEEP(*(.init_array))
    __init_array_end = .;
  } :constants
  .fini_array :
  {
    __fini_array_start = .;
    KEEP(*(SORT_BY_INIT_PRIORITY(.fini_array.*)))
    KEEP(*(.fini_array))
    __fini_array_end = .;
  } :constants

  . = ALIGN(4096);
  .data :
  {
    *(.data .data.*)
    __global_pointer$ = . + 0x800;
    *(.sdata .sdata.*)
    . = ALIGN(16);
  } :data

  /* Thread-local data: one thread, so one block, which tp points to. */
  .tdata : { __tls_base = .; *(.tdata .tdata.*) } :data
  .tbss (NOLOAD) : { *(.tbss .tbss.*) } :data
  .bss (NOLOAD) :
  {
    . = . + SIZEOF(.tbss);
    *(.sbss .sbss.*)
    *(.bss .bss.* COMMON)
    . = ALIGN(16);
  } :data

  /DISCARD/ : { *(.comment) *(.note .note.*) *(.eh_frame .eh_frame_hdr) *(.riscv.attributes) }
}
