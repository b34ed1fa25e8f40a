/* Asks for memory while a block that was freed waits for its owner, which stands in an activation. */
#include "contiki.h"

PROCESS(freer, "Freer");
PROCESS(owner, "Owner");
AUTOSTART_PROCESSES(&freer, &owner);

#ifndef ASKS
#define ASKS heapmem_stats(&stats)
#endif

static char *block;

PROCESS_THREAD(freer, ev, data)
{
  static heapmem_stats_t stats;
  static struct mmem large;

  PROCESS_BEGIN();

  (void)stats;
  (void)large;
  PROCESS_WAIT_EVENT_UNTIL(ev == PROCESS_EVENT_MSG);
  heapmem_free(block);
  ASKS;

  PROCESS_END();
}

PROCESS_THREAD(owner, ev, data)
{
  PROCESS_BEGIN();

  block = heapmem_alloc(8);
  process_post_synch(&freer, PROCESS_EVENT_MSG, NULL);

  PROCESS_END();
}
