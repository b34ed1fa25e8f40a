/* One of two sources: it starts the other one's process, and calls a function that knows nothing of Contiki-NG. */
#include "contiki.h"
#include "sys/log.h"

#define LOG_MODULE "Parts"
#define LOG_LEVEL LOG_LEVEL_MAIN

#if CLOCK_SECOND != 50
#error "project-conf.h says how many ticks a second has"
#endif

PROCESS_NAME(second);
PROCESS(first, "First");
PROCESS(tail, "Tail");
AUTOSTART_PROCESSES(&first, &second);

void say(const char *text);

/* Not started with the program: by file and line it comes before the other source's. */
PROCESS_THREAD(tail, ev, data)
{
  PROCESS_BEGIN();
  PROCESS_END();
}

PROCESS_THREAD(first, ev, data)
{
  PROCESS_BEGIN();

  LOG_DBG("%lu a second", CLOCK_SECOND);
  LOG_DBG_(", ");
  LOG_DBG_LLADDR(&linkaddr_node_addr);
  LOG_DBG_(", ");
  LOG_DBG_LLADDR(&linkaddr_null);
  LOG_DBG_("\n");
  say("by a plain function");
  process_start(&tail, NULL);
  process_post(&second, PROCESS_EVENT_MSG, (void *)7);

  PROCESS_END();
}
