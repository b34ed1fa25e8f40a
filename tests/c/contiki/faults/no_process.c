/* Posts to what is no process. */
#include "contiki.h"

PROCESS(faulty, "Faulty");
AUTOSTART_PROCESSES(&faulty);

PROCESS_THREAD(faulty, ev, data)
{
  PROCESS_BEGIN();

  process_post(PROCESS_ZERO, PROCESS_EVENT_MSG, NULL);

  PROCESS_END();
}
