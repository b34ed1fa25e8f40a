/* Takes a block of a pool whose blocks have pointers: on a board they are shorter, so the mote has it in another pool. */
#include "contiki.h"

#include "lib/memb.h"

struct item {
  struct item *next;
  void *data;
};

MEMB(items, struct item, 2);

PROCESS(widths, "Widths");
AUTOSTART_PROCESSES(&widths);

PROCESS_THREAD(widths, ev, data)
{
  PROCESS_BEGIN();

  printf("begin\n");
  PROCESS_WAIT_EVENT_UNTIL(ev == serial_line_event_message);
  printf("%s\n", memb_alloc(&items) == NULL ? "none" : "a block");

  PROCESS_END();
}
