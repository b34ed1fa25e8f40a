/* What one process took or set, another one gives back or stops. */
#include "contiki.h"

PROCESS(owner, "Owner");
PROCESS(other, "Other");
AUTOSTART_PROCESSES(&owner, &other);

static char *block;
static struct mmem managed;
static struct etimer timer, shared;
static struct ctimer callback;

static void
never(void *ptr)
{
  (void)ptr;
  printf("never\n");
}

PROCESS_THREAD(owner, ev, data)
{
  PROCESS_BEGIN();

  block = heapmem_alloc(20);
  mmem_alloc(&managed, 10);
  etimer_set(&timer, 5);
  etimer_set(&shared, 5);
  ctimer_set(&callback, 5, never, NULL);
  /* It runs: nothing is done. */
  ctimer_reset(&callback);
  while(1) {
    PROCESS_WAIT_EVENT();
    printf("owner: event %d\n", ev);
  }

  PROCESS_END();
}

PROCESS_THREAD(other, ev, data)
{
  PROCESS_BEGIN();

  block = heapmem_realloc(block, 30);
  heapmem_free(block);
  mmem_free(&managed);
  etimer_stop(&timer);
  ctimer_stop(&callback);
  etimer_set(&shared, 3);
  PROCESS_WAIT_EVENT_UNTIL(etimer_expired(&shared));
  printf("other: %d\n", data == &shared);

  PROCESS_END();
}
