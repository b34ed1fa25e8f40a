/* Motes send the lines of their serial line to mote 1, which prints each with its sender. */
#include "contiki.h"
#include "net/netstack.h"
#include "net/nullnet/nullnet.h"
#include "net/packetbuf.h"
#include "sys/node-id.h"

PROCESS(reporter, "Reporter");
AUTOSTART_PROCESSES(&reporter);

static const linkaddr_t sink = {{0, 1, 0, 1, 0, 1, 0, 1}};

static void
hear(const void *data, uint16_t len, const linkaddr_t *src, const linkaddr_t *dest)
{
  printf("%02x%02x: %.*s", src->u8[6], src->u8[7], (int)len, (const char *)data);
  printf(", to %s, %d dBm\n", linkaddr_cmp(dest, &linkaddr_node_addr) ? "me" : "all", (int16_t)packetbuf_attr(PACKETBUF_ATTR_RSSI));
}

PROCESS_THREAD(reporter, ev, data)
{
  PROCESS_BEGIN();
  nullnet_set_input_callback(hear);
  while(1) {
    PROCESS_WAIT_EVENT_UNTIL(ev == serial_line_event_message && node_id != 1);
    nullnet_buf = data;
    nullnet_len = (uint16_t)strlen(data);
    NETSTACK_NETWORK.output(&sink);
  }
  PROCESS_END();
}
