/* Takes seventeen blocks of managed memory. */
#include "contiki.h"
#include "net/netstack.h"
#include "net/nullnet/nullnet.h"

PROCESS(greedy, "Greedy");
AUTOSTART_PROCESSES(&greedy);

static struct mmem blocks[17];

PROCESS_THREAD(greedy, ev, data)
{
  PROCESS_BEGIN();

  for(int i = 0; i < 17; i++) {
    mmem_alloc(&blocks[i], 1);
  }

  PROCESS_END();
}
