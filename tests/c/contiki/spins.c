/* Is told a line, tells so on standard error, and loops without end. */
#include "contiki.h"

PROCESS(spinner, "Spinner");
AUTOSTART_PROCESSES(&spinner);

PROCESS_THREAD(spinner, ev, data)
{
  static volatile bool goes_on = true;

  PROCESS_BEGIN();

  PROCESS_WAIT_EVENT();
  printf("spins\n");
  fprintf(stderr, "spins\n");
  while(goes_on) {
  }

  PROCESS_END();
}
