/* Has a block of managed memory whose struct is a local variable, which is lost at the wait. */
#include "contiki.h"

PROCESS(faulty, "Faulty");
AUTOSTART_PROCESSES(&faulty);

PROCESS_THREAD(faulty, ev, data)
{
  struct mmem lost;

  PROCESS_BEGIN();

  mmem_alloc(&lost, 10);
  PROCESS_WAIT_EVENT();

  PROCESS_END();
}
