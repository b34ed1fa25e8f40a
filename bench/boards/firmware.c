/* Prints what `hello` takes of a board's RAM: its blocks of the heap, and the stack while the mote is opened, and from then on. */
#include "contiki.h"

#include <stdio.h>
#include <stdlib.h>

PROCESS(hello_world, "Hello world");
AUTOSTART_PROCESSES(&hello_world);

/* board.ld */
extern uint8_t board_heap_start[], board_stack_top[], board_stack_low_open[], board_stack_low_run[];

#define MPU_CONTROL (*(volatile uint32_t *)0xe000ed94)

enum { MARK = 0xa5, MARGIN = 512, HEADER = 8, LONG = 2048 /* longer than a block that was freed */ };

/* The deepest byte that isn't this one. */
static unsigned
depth(const uint8_t *low, uint8_t untouched)
{
  while(*low == untouched) {
    low++;
  }
  return (unsigned)(board_stack_top - low);
}

/* The emulator's RAM is 0 at first. What opening the mote used of it hasn't been allocated yet. */
static void
print_first(void)
{
  uint8_t *block = malloc(LONG);
  unsigned opened;
  printf("heap %u\n", (unsigned)(block - board_heap_start) - HEADER);
  /* Each block begins with its size. The last one is this function's. */
  for(const uint8_t *at = board_heap_start; at < block - HEADER; at += *(const size_t *)(const void *)at) {
    printf("block %u\n", (unsigned)*(const size_t *)(const void *)at - HEADER);
  }
  /* The guard of the running program's stack is over a part of this. */
  MPU_CONTROL = 0;
  opened = depth(MAX(board_stack_low_open, block + LONG), 0);
  MPU_CONTROL = 5;
  printf("opened %u\n", opened);
  for(uint8_t *byte = board_stack_low_run; byte < (uint8_t *)__builtin_frame_address(0) - MARGIN; byte++) {
    *byte = MARK;
  }
}

PROCESS_THREAD(hello_world, ev, data)
{
  static struct etimer timer;
  PROCESS_BEGIN();
  printf("Hello, world\n");
  print_first();
  etimer_set(&timer, 1);
  PROCESS_WAIT_EVENT_UNTIL(etimer_expired(&timer));
  printf("Hello, world\n");
  printf("running %u\n", depth(board_stack_low_run, MARK));
  PROCESS_END();
}
