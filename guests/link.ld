/* Two segments: text and constants (read, execute), and data (read, write).
   The heap begins where the data segment ends, so that end is a multiple of 16.
   -Wl,--defsym=TEXT_BASE=0x90000000 puts the text at another address than 0x10000. */
OUTPUT_ARCH(riscv)
ENTRY(_start)

PHDRS
{
  text PT_LOAD FLAGS(5);
  data PT_LOAD FLAGS(6);
}

SECTIONS
{
  . = DEFINED(TEXT_BASE) ? TEXT_BASE : 0x10000;
  .text :
  {
    *(.text.start)
    *(.text .text.*)
    *(.rodata .rodata.* .srodata .srodata.*)
    . = ALIGN(4);
  } :text

  /* The constructors, which start.S calls; picolibc's exit calls the destructors. */
  .init_array :
  {
    __init_array_start = .;
    KEEP(*(SORT_BY_INIT_PRIORITY(.init_array.*)))
    KEEP(*(.init_array))
    __init_array_end = .;
  } :text
  .fini_array :
  {
    __fini_array_start = .;
    KEEP(*(SORT_BY_INIT_PRIORITY(.fini_array.*)))
    KEEP(*(.fini_array))
    __fini_array_end = .;
  } :text

  . = ALIGN(4096);
  .data :
  {
    *(.data .data.*)
    __global_pointer$ = . + 0x800;
    *(.sdata .sdata.*)
    . = ALIGN(16);
  } :data

  /* Thread-local data: one thread, so one block, which tp points to. */
  .tdata : { __tls_base = .; *(.tdata .tdata.*) } :data
  .tbss (NOLOAD) : { *(.tbss .tbss.*) } :data
  .bss (NOLOAD) :
  {
    . = . + SIZEOF(.tbss);
    *(.sbss .sbss.*)
    *(.bss .bss.* COMMON)
    . = ALIGN(16);
    /* Never empty: else the heap begins behind the text, in a page of text. */
    . = SIZEOF(.data) + SIZEOF(.tdata) + . == 0 ? 16 : .;
  } :data

  /DISCARD/ : { *(.comment) *(.note .note.*) *(.eh_frame .eh_frame_hdr) *(.riscv.attributes) }
}
