/* Prints what depends on the mote's number, and sends a frame. */
#include "contiki.h"

#include "lib/random.h"
#include "net/netstack.h"
#include "net/nullnet/nullnet.h"
#include "sys/node-id.h"

PROCESS(node, "Node");
AUTOSTART_PROCESSES(&node);

PROCESS_THREAD(node, ev, data)
{
  static uint8_t byte = 7;

  PROCESS_BEGIN();

  printf("%u %02x%02x\n", node_id, linkaddr_node_addr.u8[0], linkaddr_node_addr.u8[1]);
  nullnet_buf = &byte;
  nullnet_len = 1;
  NETSTACK_NETWORK.output(NULL);

  PROCESS_END();
}
