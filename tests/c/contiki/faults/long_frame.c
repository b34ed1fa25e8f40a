/* Sends a frame of 128 bytes. */
#include "contiki.h"
#include "net/netstack.h"
#include "net/nullnet/nullnet.h"

PROCESS(greedy, "Greedy");
AUTOSTART_PROCESSES(&greedy);

static uint8_t bytes[128];

PROCESS_THREAD(greedy, ev, data)
{
  PROCESS_BEGIN();

  nullnet_buf = bytes;
  nullnet_len = sizeof bytes;
  NETSTACK_NETWORK.output(NULL);

  PROCESS_END();
}
