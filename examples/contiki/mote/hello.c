/* The application hello of mote: prints `hi` when it is started. */
#include "contiki.h"

#include <stdio.h>

PROCESS(hello, "hello");
AUTOSTART_PROCESSES(&hello);

PROCESS_THREAD(hello, ev, data)
{
  PROCESS_BEGIN();

  printf("hi\n");
  while(1) {
    PROCESS_WAIT_EVENT();
  }

  PROCESS_END();
}
