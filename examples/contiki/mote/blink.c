/* The application blink of mote: prints `on` and `off` by turns, every ten ticks. */
#include "contiki.h"

#include <stdio.h>

PROCESS(blink, "blink");
AUTOSTART_PROCESSES(&blink);

PROCESS_THREAD(blink, ev, data)
{
  static struct etimer timer;
  static bool lit;

  PROCESS_BEGIN();

  etimer_set(&timer, 10);
  while(1) {
    PROCESS_WAIT_EVENT_UNTIL(ev == PROCESS_EVENT_TIMER);
    lit = !lit;
    printf("%s\n", lit ? "on" : "off");
    etimer_reset(&timer);
  }

  PROCESS_END();
}
