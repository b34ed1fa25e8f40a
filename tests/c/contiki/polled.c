/* A process is polled, ended and started again: it is told POLL all the same. One that was told isn't told again. */
#include "contiki.h"

PROCESS(polled, "Polled");
PROCESS(starter, "Starter");
AUTOSTART_PROCESSES(&polled, &starter);

PROCESS_THREAD(polled, ev, data)
{
  PROCESS_BEGIN();

  printf("polled: begins\n");
  while(1) {
    PROCESS_WAIT_EVENT();
    printf("polled: %d\n", ev);
  }

  PROCESS_END();
}

PROCESS_THREAD(starter, ev, data)
{
  PROCESS_BEGIN();

  process_poll(&polled);
  process_exit(&polled);
  process_start(&polled, NULL);
  PROCESS_PAUSE();
  printf("starter: goes on\n");
  process_exit(&polled);
  process_start(&polled, NULL);

  PROCESS_END();
}
