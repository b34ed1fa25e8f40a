/* A process that prints more than a port takes, or whose fault can't be reported: its name is no address any more. */
#include "contiki.h"

#include <stdlib.h>

PROCESS(careless, "Careless");
AUTOSTART_PROCESSES(&careless);

static int *volatile nowhere;

static void
fill(void)
{
  for(unsigned i = 0; i < 2000; i++) {
    printf("%04u: a line for a port that takes nothing\n", i);
  }
}

PROCESS_THREAD(careless, ev, data)
{
  PROCESS_BEGIN();
  while(1) {
    PROCESS_WAIT_EVENT_UNTIL(ev == serial_line_event_message);
    if(strcmp(data, "fill") == 0) {
      fill();
    } else if(strcmp(data, "exit") == 0) {
      exit(1);
    } else {
      careless.name = (const char *)(uintptr_t)0xf0000000;
      printf("%d\n", *nowhere);
    }
  }
  PROCESS_END();
}
