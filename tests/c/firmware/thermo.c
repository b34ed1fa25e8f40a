/* Prints each second what a register has, which no input says. */
#include "contiki.h"

#include "dev/value.h"

#include <unistd.h>

PROCESS(thermo, "Thermo");
AUTOSTART_PROCESSES(&thermo);

/* Stands for a register: it changes with each read, and is another one in each run. */
static uint32_t
read_register(void)
{
  static uint32_t state;
  if(state == 0) {
    state = (uint32_t)(uintptr_t)&state >> 4 | 1;
#ifdef __linux__
    state ^= (uint32_t)getpid() * 2654435761u;
#endif
  }
  state = state * 1103515245u + 12345u;
  return state >> 22;
}

PROCESS_THREAD(thermo, ev, data)
{
  static struct etimer timer;

  PROCESS_BEGIN();

  etimer_set(&timer, CLOCK_SECOND);
  while(1) {
    PROCESS_WAIT_EVENT_UNTIL(etimer_expired(&timer));
    printf("%lu degrees\n", (unsigned long)value_of(read_register));
    etimer_reset(&timer);
  }

  PROCESS_END();
}
