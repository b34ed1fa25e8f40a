/* Calls exit, which ends a node; what was printed before is kept. */
#include "contiki.h"

#include <stdio.h>
#include <stdlib.h>

PROCESS(faulty, "Faulty");
AUTOSTART_PROCESSES(&faulty);

PROCESS_THREAD(faulty, ev, data)
{
  PROCESS_BEGIN();

  printf("no line end");
  exit(0);

  PROCESS_END();
}
