/* Posts an event that is the kernel's own. */
#include "contiki.h"
#include "net/netstack.h"
#include "net/nullnet/nullnet.h"

PROCESS(greedy, "Greedy");
AUTOSTART_PROCESSES(&greedy);

PROCESS_THREAD(greedy, ev, data)
{
  PROCESS_BEGIN();

  process_post(&greedy, PROCESS_EVENT_TIMER, NULL);

  PROCESS_END();
}
