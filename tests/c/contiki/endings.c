/* Processes that end others which are at their end already: nothing comes of it. */
#include "contiki.h"

PROCESS(first, "First");
PROCESS(second, "Second");
PROCESS(third, "Third");
PROCESS(watcher, "Watcher");
AUTOSTART_PROCESSES(&first, &second, &third, &watcher);

/* Its timer is a local variable of a function, and another process waits meanwhile: it is stopped there, so nothing is lost. */
static void
use_timer(void)
{
  struct etimer timer;
  etimer_set(&timer, 5);
  process_post_synch(&second, PROCESS_EVENT_MSG, NULL);
  etimer_stop(&timer);
}

PROCESS_THREAD(first, ev, data)
{
  PROCESS_EXITHANDLER(process_exit(&second));
  PROCESS_BEGIN();

  PROCESS_WAIT_UNTIL(ev == PROCESS_EVENT_MSG);

  PROCESS_END();
}

PROCESS_THREAD(second, ev, data)
{
  PROCESS_EXITHANDLER(process_exit(&first));
  PROCESS_BEGIN();

  while(1) {
    PROCESS_WAIT_EVENT();
    if(ev == PROCESS_EVENT_EXITED) {
      process_exit(data);
    }
  }

  PROCESS_END();
}

PROCESS_THREAD(third, ev, data)
{
  PROCESS_BEGIN();

  use_timer();
  PROCESS_WAIT_EVENT();
  process_exit(&first);
  process_exit(&third);
  PROCESS_WAIT_EVENT();
  printf("never\n");

  PROCESS_END();
}

/* Hears of it first. */
PROCESS_THREAD(watcher, ev, data)
{
  PROCESS_BEGIN();

  while(1) {
    PROCESS_WAIT_EVENT();
    if(ev == PROCESS_EVENT_EXITED) {
      process_exit(data);
    }
  }

  PROCESS_END();
}
