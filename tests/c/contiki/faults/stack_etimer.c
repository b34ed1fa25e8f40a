/* Has an event timer whose struct is a local variable, which is lost at the wait. */
#include "contiki.h"

PROCESS(first, "First");
PROCESS(faulty, "Faulty");
AUTOSTART_PROCESSES(&first, &faulty);

PROCESS_THREAD(first, ev, data)
{
  PROCESS_BEGIN();

  PROCESS_WAIT_EVENT();

  PROCESS_END();
}

PROCESS_THREAD(faulty, ev, data)
{
  struct etimer lost;

  PROCESS_BEGIN();

  etimer_set(&lost, 10);
  PROCESS_WAIT_EVENT();

  PROCESS_END();
}
