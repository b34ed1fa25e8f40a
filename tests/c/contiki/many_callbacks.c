/* A process sets more callback timers than it has in the mote, and stops some of each kind. */
#include "contiki.h"

PROCESS(only, "Only");
AUTOSTART_PROCESSES(&only);

static struct ctimer timers[40];
static unsigned calls;

static void
called(void *ptr)
{
  printf("%d at %lu\n", (int)(intptr_t)ptr, clock_time());
}

static void
count(CC_UNUSED void *ptr)
{
  calls++;
}

static void
set(unsigned i, int interval)
{
  ctimer_set(&timers[i], (clock_time_t)interval, called, (void *)(intptr_t)interval);
}

PROCESS_THREAD(only, ev, data)
{
  static const int intervals[9] = {9, 1, 8, 2, 7, 3, 6, 4, 5};

  PROCESS_BEGIN();

  for(unsigned i = 0; i < 9; i++) {
    set(i, intervals[i]);
  }
  set(9, 11);
  /* One that waits, and the one that the others wait for. */
  ctimer_stop(&timers[4]);
  ctimer_stop(&timers[3]);
  printf("%d %d %d %lu\n", ctimer_expired(&timers[4]), ctimer_expired(&timers[3]), ctimer_expired(&timers[8]),
         etimer_next_expiration_time());
  ctimer_restart(&timers[5]);
  set(8, 10);
  PROCESS_WAIT_EVENT_UNTIL(ev == serial_line_event_message);
  /* Clock 11. */
  printf("%d\n", etimer_pending());
  for(unsigned i = 0; i < 40; i++) {
    ctimer_set(&timers[i], 1 + i, count, NULL);
  }
  printf("%lu\n", etimer_next_expiration_time());
  PROCESS_WAIT_EVENT_UNTIL(ev == serial_line_event_message);
  /* Clock 111. */
  printf("%u %d\n", calls, etimer_pending());
  /* The one that the others wait for is stopped, and nothing is set after that. */
  for(unsigned i = 0; i < 7; i++) {
    ctimer_set(&timers[i], 1 + i, count, NULL);
  }
  ctimer_stop(&timers[3]);
  PROCESS_WAIT_EVENT_UNTIL(ev == serial_line_event_message);
  printf("%u %d\n", calls, etimer_pending());

  PROCESS_END();
}
