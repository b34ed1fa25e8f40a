/* Takes 65 blocks of heap memory. */
#include "contiki.h"
#include "net/netstack.h"
#include "net/nullnet/nullnet.h"

PROCESS(greedy, "Greedy");
AUTOSTART_PROCESSES(&greedy);

PROCESS_THREAD(greedy, ev, data)
{
  PROCESS_BEGIN();

  for(int i = 0; i < 65; i++) {
    heapmem_alloc(1);
  }

  PROCESS_END();
}
