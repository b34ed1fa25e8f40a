/* Has a callback timer whose struct is a local variable, which is lost at the wait. */
#include "contiki.h"

PROCESS(faulty, "Faulty");
AUTOSTART_PROCESSES(&faulty);

PROCESS_THREAD(faulty, ev, data)
{
  struct ctimer lost;

  PROCESS_BEGIN();

  ctimer_set(&lost, 10, NULL, NULL);
  PROCESS_WAIT_EVENT();

  PROCESS_END();
}
