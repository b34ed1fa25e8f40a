/* Sets a timer of more than 4294967295 ticks. */
#include "contiki.h"
#include "net/netstack.h"
#include "net/nullnet/nullnet.h"

PROCESS(greedy, "Greedy");
AUTOSTART_PROCESSES(&greedy);

static struct etimer timer;

PROCESS_THREAD(greedy, ev, data)
{
  PROCESS_BEGIN();

  etimer_set(&timer, (clock_time_t)1 << 32);

  PROCESS_END();
}
