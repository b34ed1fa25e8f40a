/* Prints who it is, and whatever frame it is given. A line has it send: to itself, to mote 2, to all, by a NULL, or under another
 * address. */
#include "contiki.h"
#include "contiki-net.h"
#include "sys/node-id.h"

PROCESS(node, "Node");
AUTOSTART_PROCESSES(&node);

static void
print_address(const linkaddr_t *address)
{
  for(unsigned i = 0; i < LINKADDR_SIZE; i++) {
    printf("%02x", address->u8[i]);
  }
}

static void
hear(const void *data, uint16_t len, const linkaddr_t *src, const linkaddr_t *dest)
{
  printf("%u ", len);
  print_address(src);
  printf(" ");
  print_address(dest);
  printf(" %d %d\n", linkaddr_cmp(src, packetbuf_addr(PACKETBUF_ADDR_SENDER)), linkaddr_cmp(dest, packetbuf_addr(PACKETBUF_ADDR_RECEIVER)));
  printf("%d %u %u\n", (int16_t)packetbuf_attr(PACKETBUF_ATTR_RSSI), packetbuf_attr(PACKETBUF_ATTR_LINK_QUALITY),
         len == 0 ? 0 : *(const uint8_t *)data);
}

static void
send(const char *how)
{
  static uint8_t bytes[128];
  linkaddr_t two = {{0, 2, 0, 2, 0, 2, 0, 2}};
  bytes[0] = (uint8_t)how[0];
  nullnet_buf = bytes;
  nullnet_len = (uint16_t)strlen(how);
  if(how[0] == 'r') {
    linkaddr_t renamed = {{1, 2, 3, 4, 5, 6, 7, 8}};
    linkaddr_set_node_addr(&renamed);
  }
  NETSTACK_NETWORK.output(how[0] == 's' ? &linkaddr_node_addr : how[0] == '2' ? &two : how[0] == 'n' ? NULL : &linkaddr_null);
}

PROCESS_THREAD(node, ev, data)
{
  PROCESS_BEGIN();
  nullnet_set_input_callback(hear);
  printf("%u ", node_id);
  print_address(&linkaddr_node_addr);
  printf(" %u %d %u\n", random_rand(), packetbuf_attr(PACKETBUF_ATTR_RSSI), packetbuf_attr(200));
  while(1) {
    PROCESS_WAIT_EVENT_UNTIL(ev == serial_line_event_message);
    send(data);
  }
  PROCESS_END();
}
