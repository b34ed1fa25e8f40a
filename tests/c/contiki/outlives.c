/* Callbacks of processes that have ended: by themselves, by another process, and as the last one. */
#include "contiki.h"

PROCESS(third, "Third");
PROCESS(second, "Second");
PROCESS(first, "First");
AUTOSTART_PROCESSES(&third, &second, &first);

static struct ctimer of_first, of_second, at_exit, again, late[5];
static unsigned calls;

static void
called(void *ptr)
{
  printf("%s, by %s at %lu\n", (const char *)ptr, PROCESS_CURRENT()->name, clock_time());
}

/* Sets itself again, though its process doesn't run, and then starts a process. */
static void
called_again(void *ptr)
{
  called(ptr);
  if(++calls < 3) {
    ctimer_reset(&again);
  } else {
    process_start(&third, NULL);
  }
}

PROCESS_THREAD(first, ev, data)
{
  PROCESS_BEGIN();

  ctimer_set(&of_first, 5, called, "first");
  ctimer_set(&again, 6, called_again, "again");

  PROCESS_END();
}

PROCESS_THREAD(second, ev, data)
{
  PROCESS_EXITHANDLER(ctimer_set(&at_exit, 2, called, "exit"));
  PROCESS_BEGIN();

  ctimer_set(&of_second, 10, called, "second");
  while(1) {
    PROCESS_WAIT_EVENT();
  }

  PROCESS_END();
}

PROCESS_THREAD(third, ev, data)
{
  PROCESS_BEGIN();

  printf("Third begins\n");
  PROCESS_WAIT_EVENT_UNTIL(ev == serial_line_event_message);
  process_exit(&second);
  printf("%d %lu\n", process_is_running(&second), etimer_next_expiration_time());
  PROCESS_WAIT_EVENT_UNTIL(ev == serial_line_event_message);
  /* With these it has six, more than four. */
  for(int i = 0; i < 5; i++) {
    ctimer_set(&late[i], 10 + i, called, "late");
  }
  ctimer_stop(&late[4]);
  printf("Third ends\n");

  PROCESS_END();
}
