/* Prints without end. */
#include "contiki.h"

PROCESS(faulty, "Faulty");
AUTOSTART_PROCESSES(&faulty);

PROCESS_THREAD(faulty, ev, data)
{
  PROCESS_BEGIN();

  while(1) {
    printf("again\n");
  }

  PROCESS_END();
}
