/* Frames by NullNet: the process that set the callback ends, and the next one that is told something receives them; the one that ends
 * this one follows it. */
#include "contiki.h"
#include "net/netstack.h"
#include "net/nullnet/nullnet.h"

PROCESS(brief, "Brief");
PROCESS(lasting, "Lasting");
PROCESS(passing, "Passing");
AUTOSTART_PROCESSES(&brief, &lasting, &passing);

static void
received(const void *data, uint16_t len, const linkaddr_t *src, const linkaddr_t *dest)
{
  printf("%s: %u bytes, %d\n", PROCESS_CURRENT()->name, len, linkaddr_cmp(src, &linkaddr_null) && linkaddr_cmp(dest, &linkaddr_null));
  nullnet_buf = (uint8_t *)data;
  nullnet_len = len;
  printf("sent %d\n", NETSTACK_NETWORK.output(NULL));
}

PROCESS_THREAD(brief, ev, data)
{
  PROCESS_BEGIN();

  nullnet_set_input_callback(NULL);
  printf("none yet\n");
  nullnet_set_input_callback(received);
  PROCESS_WAIT_EVENT_UNTIL(ev == serial_line_event_message);

  PROCESS_END();
}

PROCESS_THREAD(passing, ev, data)
{
  PROCESS_BEGIN();

  while(1) {
    PROCESS_WAIT_EVENT();
  }

  PROCESS_END();
}

PROCESS_THREAD(lasting, ev, data)
{
  PROCESS_BEGIN();

  nullnet_set_input_callback(received);
  PROCESS_WAIT_EVENT_UNTIL(ev == serial_line_event_message);
  PROCESS_WAIT_EVENT_UNTIL(ev == serial_line_event_message);
  process_exit(&passing);
  while(1) {
    PROCESS_WAIT_EVENT();
  }

  PROCESS_END();
}
