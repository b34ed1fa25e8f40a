/* Takes more blocks of 100 bytes than the mote has. */
#include "contiki.h"
#include "net/netstack.h"
#include "net/nullnet/nullnet.h"

PROCESS(greedy, "Greedy");
AUTOSTART_PROCESSES(&greedy);

struct large {
  char bytes[100];
};

MEMB(first, struct large, 10);
MEMB(second, struct large, 10);

PROCESS_THREAD(greedy, ev, data)
{
  PROCESS_BEGIN();

  for(int i = 0; i < 10; i++) {
    memb_alloc(&first);
    memb_alloc(&second);
  }

  PROCESS_END();
}
