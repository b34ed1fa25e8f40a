/* Takes a second block for a struct that has one. */
#include "contiki.h"

PROCESS(greedy, "Greedy");
AUTOSTART_PROCESSES(&greedy);

static struct mmem block;

PROCESS_THREAD(greedy, ev, data)
{
  PROCESS_BEGIN();

  mmem_alloc(&block, 8);
  mmem_alloc(&block, 16);

  PROCESS_END();
}
