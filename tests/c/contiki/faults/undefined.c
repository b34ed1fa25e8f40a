/* Divides by 0 once a line came in. */
#include "contiki.h"
#include "dev/serial-line.h"

#include <stdio.h>

PROCESS(faulty, "Faulty");
AUTOSTART_PROCESSES(&faulty);

PROCESS_THREAD(faulty, ev, data)
{
  static int lines;

  PROCESS_BEGIN();

  PROCESS_WAIT_EVENT_UNTIL(ev == serial_line_event_message);
  printf("a line\n");
  printf("%d\n", 1 / lines);

  PROCESS_END();
}
