/* Frees a managed block that was never taken. */
#include "contiki.h"
#include "net/netstack.h"
#include "net/nullnet/nullnet.h"

PROCESS(greedy, "Greedy");
AUTOSTART_PROCESSES(&greedy);

static struct mmem block;

PROCESS_THREAD(greedy, ev, data)
{
  PROCESS_BEGIN();

  mmem_free(&block);

  PROCESS_END();
}
