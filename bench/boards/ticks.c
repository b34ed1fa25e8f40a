/*
 * Linked with --wrap=main: after main, prints what it took on the emulated mps2-an385. With qemu's `-icount shift=0` an instruction
 * takes a nanosecond, so a tick of the timer, of 25 MHz, is 40 instructions.
 */
#include "startup.h"

#include <stdint.h>
#include <stdio.h>

int __real_main(int count, char **words);
int __wrap_main(int count, char **words);

int
__wrap_main(int count, char **words)
{
  volatile uint32_t *timer = (volatile uint32_t *)0x40000000;
  timer[2] = 0xffffffff;
  timer[1] = 0xffffffff;
  timer[0] = 1;
  int status = __real_main(count, words);
  uint32_t ticks = 0xffffffff - timer[1];
  size_t stack = board_stack_used(), heap = board_heap_used();
  fprintf(stderr, "ticks %lu stack %lu heap %lu\n", (unsigned long)ticks, (unsigned long)stack, (unsigned long)heap);
  return status;
}
