/* The program of the Makefiles here: its second source tells what they define. */
#include "contiki.h"

void tell(void);

PROCESS(only, "Only");
AUTOSTART_PROCESSES(&only);

PROCESS_THREAD(only, ev, data)
{
  PROCESS_BEGIN();
  tell();
  PROCESS_END();
}
