/* Sets nine event timers. */
#include "contiki.h"
#include "net/netstack.h"
#include "net/nullnet/nullnet.h"

PROCESS(greedy, "Greedy");
AUTOSTART_PROCESSES(&greedy);

static struct etimer timers[9];

PROCESS_THREAD(greedy, ev, data)
{
  PROCESS_BEGIN();

  for(int i = 0; i < 9; i++) {
    etimer_set(&timers[i], 10);
  }

  PROCESS_END();
}
