/* While a process awaits the reply to a call, others ask for its timers, stop them, and set timers for it. */
#include "contiki.h"

PROCESS(other, "Other");
PROCESS(third, "Third");
PROCESS(owner, "Owner");
AUTOSTART_PROCESSES(&other, &third, &owner);

static struct etimer at_once, stopped, later, due, again, wake, many[10];
static struct ctimer callback;
static heapmem_stats_t stats;

static const char *
name_of(const void *timer)
{
  return timer == &at_once ? "at once" : timer == &stopped ? "stopped" : timer == &later ? "later" : timer == &due ? "due" : "again";
}

static void
report(process_data_t timer)
{
  printf("%s: %s at %lu, %d\n", PROCESS_CURRENT()->name, name_of(timer), clock_time(), etimer_expired(timer));
}

static void
called(CC_UNUSED void *ptr)
{
  printf("callback of %s at %lu\n", PROCESS_CURRENT()->name, clock_time());
}

/* Two timers are due, but no round was made since they were set. */
static void
change_new_timers(void)
{
  printf("%d %d\n", etimer_expired(&at_once), etimer_expired(&stopped));
  etimer_set(&at_once, 5);
  etimer_stop(&stopped);
  printf("%d %d\n", etimer_expired(&at_once), etimer_expired(&stopped));
  PROCESS_CONTEXT_BEGIN(&owner);
  etimer_set(&later, 9);
  etimer_adjust(&later, -6);
  PROCESS_CONTEXT_END(&owner);
  ctimer_set_with_process(&callback, 4, called, NULL, &owner);
  heapmem_stats(&stats);
  printf("%lu %zu\n", etimer_next_expiration_time(), stats.chunks);
}

PROCESS_THREAD(other, ev, data)
{
  PROCESS_BEGIN();

  while(1) {
    PROCESS_WAIT_EVENT();
    if(ev == PROCESS_EVENT_MSG) {
      change_new_timers();
    } else if(ev == PROCESS_EVENT_CONTINUE) {
      etimer_stop(data);
    } else if(ev == serial_line_event_message) {
      etimer_set(&wake, 6);
    } else if(data == &wake) {
      process_post_synch(&owner, PROCESS_EVENT_MSG, NULL);
    } else if(ev == PROCESS_EVENT_TIMER) {
      report(data);
    }
  }

  PROCESS_END();
}

/* Two timers have run out, and their events wait in the queue. */
PROCESS_THREAD(third, ev, data)
{
  PROCESS_BEGIN();

  PROCESS_WAIT_EVENT_UNTIL(ev == PROCESS_EVENT_MSG);
  printf("%d %d\n", etimer_expired(&due), etimer_expired(&again));
  etimer_set(&due, 7);
  PROCESS_CONTEXT_BEGIN(&owner);
  etimer_set(&again, 7);
  PROCESS_CONTEXT_END(&owner);
  printf("%d %d\n", etimer_expired(&due), etimer_expired(&again));
  PROCESS_WAIT_EVENT_UNTIL(ev == PROCESS_EVENT_TIMER);
  report(data);

  PROCESS_END();
}

PROCESS_THREAD(owner, ev, data)
{
  PROCESS_BEGIN();

  etimer_set(&at_once, 0);
  etimer_set(&stopped, 0);
  process_post_synch(&other, PROCESS_EVENT_MSG, NULL);
  /* More than it has in the mote: each one is free again. */
  for(unsigned i = 0; i < 10; i++) {
    etimer_set(&many[i], 0);
    process_post_synch(&other, PROCESS_EVENT_CONTINUE, &many[i]);
  }
  printf("Owner goes on\n");
  etimer_set(&stopped, 6);
  while(1) {
    PROCESS_WAIT_EVENT_UNTIL(ev == PROCESS_EVENT_MSG || ev == PROCESS_EVENT_TIMER);
    if(ev == PROCESS_EVENT_MSG) {
      process_post_synch(&third, PROCESS_EVENT_MSG, NULL);
      continue;
    }
    report(data);
    if(data == &stopped) {
      etimer_set(&due, 6);
      etimer_set(&again, 6);
    }
  }

  PROCESS_END();
}
