/* A part with flash at 0 and RAM at 0x20000000. The Makefile gives the sizes of both, and the bytes that are reserved for the stack. */
MEMORY
{
  FLASH (rx)  : ORIGIN = 0, LENGTH = flash_size
  RAM   (rwx) : ORIGIN = DEFINED(ram_start) ? ram_start : 0x20000000, LENGTH = ram_size
}

ENTRY(reset)

SECTIONS
{
  .text : { KEEP(*(.vectors)) *(.text*) *(.rodata*) . = ALIGN(8); } >FLASH
  .ARM.exidx : { __exidx_start = .; *(.ARM.exidx*) *(.ARM.extab*) __exidx_end = .; } >FLASH

  .data : ALIGN(8) { data_start = .; *(.data*) . = ALIGN(8); data_end = .; } >RAM AT>FLASH
  data_image = LOADADDR(.data);

  /* No load address in flash: a loader would write zeros there. */
  .bss (NOLOAD) : ALIGN(16) { bss_start = .; *(.bss*) *(COMMON) . = ALIGN(8); bss_end = .; } >RAM AT>RAM

  /* newlib calls it end. */
  heap_start = .;
  end = .;
  stack_top = ORIGIN(RAM) + LENGTH(RAM);
  stack_low = stack_top - stack_size;
  ASSERT(heap_start <= stack_low, "variables and stack don't fit in RAM")
}
