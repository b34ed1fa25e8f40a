/* An event timer that beats every second, until a callback timer stops it. */
#include "contiki.h"

#include <stdio.h>

PROCESS(timers, "Timers");
AUTOSTART_PROCESSES(&timers);

static struct etimer second;
static struct ctimer end;

static void
stop_it(void *ptr)
{
  printf("%s\n", (const char *)ptr);
  etimer_stop(&second);
}

PROCESS_THREAD(timers, ev, data)
{
  static char farewell[] = "enough";

  PROCESS_BEGIN();

  etimer_set(&second, CLOCK_SECOND);
  ctimer_set(&end, 3 * CLOCK_SECOND + CLOCK_SECOND / 2, stop_it, farewell);
  while(1) {
    PROCESS_WAIT_EVENT_UNTIL(ev == PROCESS_EVENT_TIMER && data == &second);
    printf("second %lu\n", clock_seconds());
    etimer_reset(&second);
  }

  PROCESS_END();
}
