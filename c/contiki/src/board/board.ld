/*
 * The image of a board, whose own linker script has the memories FLASH and RAM, and the sizes of the stack. The kernel's and the
 * driver's code comes first; the program's code and all constants are at 65,536 or above: an event's data below that is a number
 * (docs/contiki.md).
 */
ENTRY(board_reset)

SECTIONS
{
  .low : {
    KEEP(*(.vectors)) KEEP(*(.vectors.part))
    . = ALIGN(256); /* nothing else is near NULL, which is guarded */
    *libtoarmuts.a:*(.text* .rodata*)
    *driver.o(.text*)
    *libc.a:*(.text*) *libc_nano.a:*(.text*) *libgcc.a:*(.text*) *libm.a:*(.text*)
    . = ALIGN(8);
  } >FLASH
  .text (ORIGIN(FLASH) < 0x10000 && . < 0x10000 ? 0x10000 : .) : { *(.text*) *(.rodata*) . = ALIGN(8); } >FLASH
  /DISCARD/ : { *(.ARM.exidx*) *(.ARM.extab*) } /* nothing unwinds a stack */
  process_entries : ALIGN(4) { KEEP(*(process_entries)) } >FLASH

  .data : ALIGN(8) { board_data_start = .; *(.data*) . = ALIGN(8); board_data_end = .; } >RAM AT>FLASH
  board_data_image = LOADADDR(.data);

  .bss (NOLOAD) : ALIGN(16) {
    /* First in RAM: it can't grow into anything. */
    board_handler_stack_low = .; . += 512; . = ALIGN(8); board_handler_stack_top = .;
    board_bss_start = .; *(.bss*) *(COMMON) . = ALIGN(8); board_bss_end = .;
  } >RAM AT>RAM

  board_heap_start = .;
  board_stack_top = ORIGIN(RAM) + LENGTH(RAM);
  /* While the mote is opened, and from then on, above a guard of 4,096 bytes. */
  board_stack_low_open = (board_stack_top - stack_size_open) & ~255;
  board_stack_low_run = (board_stack_top - stack_size) & ~4095;
  ASSERT(board_heap_start <= board_stack_low_open - 256, "variables and stack don't fit in RAM")
}
