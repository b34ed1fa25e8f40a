/* PROCESS_LIST: those that run, the one that was started last first. CONTIKI_VERSION_STRING is a text. */
#include "contiki.h"

PROCESS(first, "First");
PROCESS(second, "Second");
PROCESS(third, "Third");
AUTOSTART_PROCESSES(&first, &second);

static void
list(void)
{
  const struct process *p;
  for(p = PROCESS_LIST(); p != NULL; p = p->next) {
    printf("%s ", p->name);
  }
  printf("\n");
}

PROCESS_THREAD(third, ev, data)
{
  PROCESS_BEGIN();
  list();
  PROCESS_WAIT_EVENT_UNTIL(ev == serial_line_event_message);
  PROCESS_END();
}

PROCESS_THREAD(second, ev, data)
{
  PROCESS_EXITHANDLER(list());
  PROCESS_BEGIN();
  list();
  while(1) {
    PROCESS_WAIT_EVENT();
  }
  PROCESS_END();
}

PROCESS_THREAD(first, ev, data)
{
  PROCESS_BEGIN();
  list();
  PROCESS_WAIT_EVENT_UNTIL(ev == serial_line_event_message);
  process_start(&third, NULL);
  list();
  process_exit(&second);
  process_start(&second, NULL);
  process_exit(&first);
  list();
  printf("%d\n", strncmp(CONTIKI_VERSION_STRING, "Toarmuts ", 9));
  PROCESS_END();
}
