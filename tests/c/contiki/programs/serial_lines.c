/* As the example of serial-line.h: each line that comes in is printed. */
#include "contiki.h"
#include "dev/serial-line.h"

#include <stdio.h>
#include <string.h>

PROCESS(line_printer, "Line printer");
AUTOSTART_PROCESSES(&line_printer);

PROCESS_THREAD(line_printer, ev, data)
{
  PROCESS_BEGIN();

  for(;;) {
    PROCESS_YIELD();
    if(ev == serial_line_event_message) {
      printf("A line of %u: '%s'\n", (unsigned)strlen((char *)data), (char *)data);
    }
  }

  PROCESS_END();
}
