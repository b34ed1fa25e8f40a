/* Waits for a timer in a loop, in which the clock stands still. */
#include "contiki.h"

PROCESS(faulty, "Faulty");
AUTOSTART_PROCESSES(&faulty);

PROCESS_THREAD(faulty, ev, data)
{
  static struct etimer timer;

  PROCESS_BEGIN();

  etimer_set(&timer, 10);
  while(!etimer_expired(&timer)) {
  }

  PROCESS_END();
}
