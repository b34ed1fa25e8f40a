/* Puts the static data of a program into one section: the motes of a network take turns in it (motes.c). What is constant stays apart. */
SECTIONS
{
  .data.rel.ro : { *(.data.rel.ro .data.rel.ro.*) }
  mote_data : { *(.data .data.* .bss .bss.* COMMON) }
}
