/* As link.ld, for a board whose flash and RAM stand apart: text and constants in flash, data in RAM. With start-flash.S.
   -Wl,--defsym=FLASH=0x.. and RAM=0x.. name other addresses, and RAM_BYTES another size: what .data and .bss may take.
   For the board link with -Wl,--defsym=COPIED=1: the bytes of .data then stand in flash behind the constants, and the start code
   copies them. Without it they are loaded where they are linked, as swic and qemu do; code and addresses are the same. */
OUTPUT_ARCH(riscv)
ENTRY(_start)

PHDRS
{
  text PT_LOAD FLAGS(5);
  data PT_LOAD FLAGS(6);
}

SECTIONS
{
  . = DEFINED(FLASH) ? FLASH : 0x20000000;
  .text :
  {
    *(.text.start)
    *(.text .text.*)
    *(.rodata .rodata.* .srodata .srodata.*)
    . = ALIGN(4);
  } :text
  .init_array :
  {
    __init_array_start = .;
    KEEP(*(SORT_BY_INIT_PRIORITY(.init_array.*)))
    KEEP(*(.init_array))
    __init_array_end = .;
  } :text
  .fini_array :
  {
    __fini_array_start = .;
    KEEP(*(SORT_BY_INIT_PRIORITY(.fini_array.*)))
    KEEP(*(.fini_array))
    . = ALIGN(16);
    __fini_array_end = .;
  } :text
  __flash_end = .;

  . = DEFINED(RAM) ? RAM : 0x80000000;
  __data_begin = .;
  .data : AT(DEFINED(COPIED) ? __flash_end : ADDR(.data))
  {
    *(.data .data.*)
    __global_pointer$ = . + 0x800;
    *(.sdata .sdata.*)
    . = ALIGN(16);
  } :data
  .tdata : AT(LOADADDR(.data) + SIZEOF(.data)) { __tls_base = .; *(.tdata .tdata.*) . = ALIGN(4); } :data
  __data_end = .;
  __data_load = LOADADDR(.data);

  .tbss (NOLOAD) : { *(.tbss .tbss.*) } :data
  .bss (NOLOAD) :
  {
    . = . + SIZEOF(.tbss);
    *(.sbss .sbss.*)
    *(.bss .bss.* COMMON)
    . = ALIGN(16);
    __bss_end = .;
  } :data
  ASSERT(. - __data_begin <= (DEFINED(RAM_BYTES) ? RAM_BYTES : 0x1000000), "data and bss are larger than RAM_BYTES")

  /DISCARD/ : { *(.comment) *(.note .note.*) *(.eh_frame .eh_frame_hdr) *(.riscv.attributes) }
}
