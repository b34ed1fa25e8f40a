/* What one process took, another one gives back while that one awaits an answer, and behind its end. */
#include "contiki.h"

PROCESS(other, "Other");
PROCESS(third, "Third");
PROCESS(owner, "Owner");
AUTOSTART_PROCESSES(&other, &third, &owner);

static char *block, *left;
static struct mmem managed;
static struct etimer timer;
static struct ctimer callback;

static void
never(void *ptr)
{
  (void)ptr;
  printf("never\n");
}

static void
tell_blocks(void)
{
  heapmem_stats_t stats;
  heapmem_stats(&stats);
  printf("%d\n", (int)stats.chunks);
}

PROCESS_THREAD(other, ev, data)
{
  PROCESS_BEGIN();

  PROCESS_WAIT_EVENT_UNTIL(ev == PROCESS_EVENT_MSG);
  heapmem_free(block);
  mmem_free(&managed);
  etimer_stop(&timer);
  ctimer_stop(&callback);
  printf("freed\n");
  PROCESS_WAIT_EVENT_UNTIL(ev == serial_line_event_message);
  heapmem_free(left);
  tell_blocks();
  PROCESS_WAIT_EVENT();

  PROCESS_END();
}

PROCESS_THREAD(third, ev, data)
{
  PROCESS_BEGIN();

  while(1) {
    PROCESS_WAIT_EVENT();
    if(ev == PROCESS_EVENT_EXITED) {
      printf("%s has ended\n", PROCESS_NAME_STRING((struct process *)data));
    }
  }

  PROCESS_END();
}

PROCESS_THREAD(owner, ev, data)
{
  PROCESS_BEGIN();

  block = heapmem_alloc(20);
  left = heapmem_alloc(8);
  mmem_alloc(&managed, 10);
  etimer_set(&timer, 5);
  ctimer_set(&callback, 5, never, NULL);
  process_post_synch(&other, PROCESS_EVENT_MSG, NULL);
  tell_blocks();

  PROCESS_END();
}
