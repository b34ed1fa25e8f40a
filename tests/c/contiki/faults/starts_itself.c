/* Ends itself and starts itself again, before it has come to a wait. */
#include "contiki.h"

PROCESS(faulty, "Faulty");
AUTOSTART_PROCESSES(&faulty);

PROCESS_THREAD(faulty, ev, data)
{
  PROCESS_BEGIN();

  process_exit(PROCESS_CURRENT());
  process_start(PROCESS_CURRENT(), NULL);

  PROCESS_END();
}
