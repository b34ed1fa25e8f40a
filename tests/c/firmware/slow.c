/* Repeats each line, and takes longer for it than the next line takes to arrive. */
#include "contiki.h"

PROCESS(slow, "Slow");
AUTOSTART_PROCESSES(&slow);

PROCESS_THREAD(slow, ev, data)
{
  static volatile unsigned long work;

  PROCESS_BEGIN();

  while(1) {
    PROCESS_WAIT_EVENT_UNTIL(ev == serial_line_event_message);
    for(work = 0; work < 50000; work++) {
    }
    printf("%s\n", (char *)data);
  }

  PROCESS_END();
}
