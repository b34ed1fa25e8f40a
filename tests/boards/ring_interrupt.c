/*
 * A ring between an interrupt and main: the interrupt of the timer puts bytes, main gets them, and each comes once, in order. Tried with
 * periods that drift against main's loop, so that the interrupt falls between any two of its instructions.
 */
#include "lib/ringbuf.h"
#include "startup.h"

#include <stdio.h>

enum { SENT = 20000 };

static volatile uint32_t *const systick = (volatile uint32_t *)0xe000e010;
static struct ringbuf ring;
static uint8_t data[8];
static uint32_t sent, full;

void
systick_handler(void)
{
  systick[1] = 60 + sent % 41;
  if(sent < SENT) {
    if(ringbuf_put(&ring, (uint8_t)(sent * 7))) {
      sent++;
    } else {
      full++;
    }
  }
}

int
main(void)
{
  uint32_t received = 0, wrong = 0, empty = 0;
  ringbuf_init(&ring, data, sizeof data);
  systick[1] = 60;
  systick[2] = 0;
  systick[0] = 7;
  while(received < SENT) {
    int byte = ringbuf_get(&ring);
    if(byte < 0) {
      empty++;
      continue;
    }
    wrong += byte != (uint8_t)(received * 7);
    received++;
    /* Now and then main is slow, so that the ring fills. */
    for(volatile uint32_t i = 0; received % 64 == 0 && i < 2000; i++) {
    }
  }
  printf("%lu received, %lu wrong, %lu left\n", (unsigned long)received, (unsigned long)wrong, (unsigned long)ringbuf_elements(&ring));
  return wrong != 0 || full == 0 || empty == 0;
}
