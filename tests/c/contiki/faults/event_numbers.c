/* Draws more event numbers than there are. */
#include "contiki.h"
#include "net/netstack.h"
#include "net/nullnet/nullnet.h"

PROCESS(greedy, "Greedy");
AUTOSTART_PROCESSES(&greedy);

PROCESS_THREAD(greedy, ev, data)
{
  PROCESS_BEGIN();

  for(int i = 0; i < 200; i++) {
    process_alloc_event();
  }

  PROCESS_END();
}
