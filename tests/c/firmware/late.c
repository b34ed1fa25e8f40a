/* Opens the radio at the first line. Of each frame it prints the length. */
#include "contiki.h"
#include "mote.h"

PROCESS(late, "Late");
AUTOSTART_PROCESSES(&late);

PROCESS_THREAD(late, ev, data)
{
  PROCESS_BEGIN();

  PROCESS_WAIT_EVENT_UNTIL(ev == serial_line_event_message);
  MOTE_ASK(TOARMUTS_CALL_PACKET_OPEN, 0);
  printf("open\n");
  while(1) {
    PROCESS_WAIT_EVENT_UNTIL(ev == 139);
    printf("a frame of %u bytes\n", (unsigned)mote_told()->number);
    MOTE_ASK(TOARMUTS_CALL_PACKET_DONE, 0);
  }

  PROCESS_END();
}
