/* Ends the process that calls it. */
#include "contiki.h"

PROCESS(caller, "Caller");
PROCESS(callee, "Callee");
AUTOSTART_PROCESSES(&callee, &caller);

PROCESS_THREAD(caller, ev, data)
{
  PROCESS_BEGIN();

  process_post_synch(&callee, PROCESS_EVENT_MSG, NULL);

  PROCESS_END();
}

PROCESS_THREAD(callee, ev, data)
{
  PROCESS_BEGIN();

  PROCESS_WAIT_EVENT();
  process_exit(&caller);

  PROCESS_END();
}
