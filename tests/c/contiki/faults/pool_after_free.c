/* Reads a block of a pool that was given back. */
#include "contiki.h"

#include <stdio.h>

PROCESS(faulty, "Faulty");
AUTOSTART_PROCESSES(&faulty);

struct reading {
  long value;
};

MEMB(readings, struct reading, 4);

PROCESS_THREAD(faulty, ev, data)
{
  static struct reading *reading;

  PROCESS_BEGIN();

  memb_init(&readings);
  reading = memb_alloc(&readings);
  memb_free(&readings, reading);
  PROCESS_WAIT_EVENT();
  printf("%ld\n", reading->value);

  PROCESS_END();
}
