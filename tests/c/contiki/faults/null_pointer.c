/* Two processes, of which the second one writes where nothing is, in a call of the first. */
#include "contiki.h"

PROCESS(careful, "Careful");
PROCESS(careless, "Careless");
AUTOSTART_PROCESSES(&careful, &careless);

PROCESS_THREAD(careful, ev, data)
{
  PROCESS_BEGIN();

  PROCESS_PAUSE();
  process_post_synch(&careless, PROCESS_EVENT_MSG, NULL);

  PROCESS_END();
}

PROCESS_THREAD(careless, ev, data)
{
  PROCESS_BEGIN();

  PROCESS_WAIT_EVENT_UNTIL(ev == PROCESS_EVENT_MSG);
  *(volatile int *)data = 1;

  PROCESS_END();
}
