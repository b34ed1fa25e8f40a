/* The other source, which also includes what contiki.h does. */
#include "project-conf.h"
#include "contiki.h"

PROCESS(head, "Head");
PROCESS(second, "Second");

PROCESS_THREAD(head, ev, data)
{
  PROCESS_BEGIN();
  PROCESS_END();
}

PROCESS_THREAD(second, ev, data)
{
  static struct stimer seconds;

  PROCESS_BEGIN();

  PROCESS_WAIT_EVENT_UNTIL(ev == PROCESS_EVENT_MSG);
  printf("told %d", (int)(uintptr_t)data);
  stimer_set(&seconds, 2);
  PROCESS_WAIT_EVENT_UNTIL(ev == serial_line_event_message);
  printf("%lu s, %d\n", clock_seconds(), stimer_expired(&seconds));
  PROCESS_WAIT_EVENT_UNTIL(ev == PROCESS_EVENT_EXITED || ev == PROCESS_EVENT_POLL);
  printf("never\n");

  PROCESS_END();
}
