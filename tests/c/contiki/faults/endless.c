/* Waits for the clock within an activation, where it stands still. */
#include "contiki.h"

PROCESS(faulty, "Faulty");
AUTOSTART_PROCESSES(&faulty);

PROCESS_THREAD(faulty, ev, data)
{
  PROCESS_BEGIN();

  while(clock_time() < 10) {
  }

  PROCESS_END();
}
