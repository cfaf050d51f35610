/* As vendors' scripts for microcontrollers have it: vectors, constants and constructors in flash, data copied from _sidata, heap and
   stack behind .bss, the stack down from the RAM's end. */
ENTRY(Reset_Handler)
MEMORY
{
  FLASH (rx) : ORIGIN = 0x20010000, LENGTH = 512K
  RAM (xrw)  : ORIGIN = 0x80000000, LENGTH = RAM_BYTES
}
_estack = ORIGIN(RAM) + LENGTH(RAM);
_Min_Heap_Size = 0x200;
_Min_Stack_Size = 0x400;
SECTIONS
{
  .init : { KEEP(*(SORT_NONE(.init))) } >FLASH
  .vectors : ALIGN(256) { KEEP(*(.vectors)) } >FLASH
  .text :
  {
    *(.text.unlikely .text.unlikely.*)
    *(.text.startup .text.startup.*)
    *(.text .text.* .gnu.linkonce.t.*)
    . = ALIGN(4);
  } >FLASH
  .rodata : ALIGN(4) { *(.rodata .rodata.* .gnu.linkonce.r.*) . = ALIGN(4); } >FLASH
  .init_array :
  {
    PROVIDE_HIDDEN(__init_array_start = .);
    KEEP(*(SORT_BY_INIT_PRIORITY(.init_array.*)))
    KEEP(*(.init_array))
    PROVIDE_HIDDEN(__init_array_end = .);
  } >FLASH
  .data : ALIGN(4)
  {
    _sdata = .;
    *(.data .data.*)
    . = ALIGN(8);
    PROVIDE(__global_pointer$ = . + 0x800);
    *(.sdata .sdata.*)
    *(.srodata .srodata.*)
    . = ALIGN(4);
    _edata = .;
  } >RAM AT>FLASH
  _sidata = LOADADDR(.data);
  .bss (NOLOAD) : ALIGN(4)
  {
    _sbss = .;
    *(.sbss .sbss.* .bss .bss.* COMMON)
    . = ALIGN(8);
    _ebss = .;
  } >RAM
  ._user_heap_stack (NOLOAD) :
  {
    PROVIDE(_end = .);
    . += _Min_Heap_Size + _Min_Stack_Size;
  } >RAM
  /DISCARD/ : { *(.eh_frame .eh_frame.* .comment .note .note.*) }
}
