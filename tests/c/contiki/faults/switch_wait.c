/* Waits within a switch of its own, where a thread can't go on. */
#include "contiki.h"

PROCESS(faulty, "Faulty");
AUTOSTART_PROCESSES(&faulty);

PROCESS_THREAD(faulty, ev, data)
{
  static int state;

  PROCESS_BEGIN();

  switch(state) {
  case 0:
    PROCESS_WAIT_EVENT_UNTIL(ev == serial_line_event_message);
    printf("never\n");
    break;
  default:
    break;
  }

  PROCESS_END();
}
