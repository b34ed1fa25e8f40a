/* Prints a count every second, whatever comes in between. */
#include "contiki.h"

#include <stdio.h>

PROCESS(pulse, "Pulse");
AUTOSTART_PROCESSES(&pulse);

PROCESS_THREAD(pulse, ev, data)
{
  static struct etimer timer;
  static unsigned count;

  PROCESS_BEGIN();
  etimer_set(&timer, CLOCK_SECOND);
  while(1) {
    PROCESS_WAIT_EVENT_UNTIL(etimer_expired(&timer));
    count++;
    printf("pulse %u\n", count);
    etimer_reset(&timer);
  }
  PROCESS_END();
}
