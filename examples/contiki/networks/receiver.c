/* Stop and wait: each line that arrives is acknowledged by its number, and printed if it is the next one. */
#include "contiki.h"
#include "net/netstack.h"
#include "net/nullnet/nullnet.h"

PROCESS(receiver, "Receiver");
AUTOSTART_PROCESSES(&receiver);

static uint8_t last;

static void
hear(const void *data, uint16_t len, const linkaddr_t *src, const linkaddr_t *dest)
{
  static uint8_t number;
  (void)dest;
  number = *(const uint8_t *)data;
  if(number == (uint8_t)(last + 1)) {
    last = number;
    printf("%u: %.*s\n", number, len - 1, (const char *)data + 1);
  }
  nullnet_buf = &number;
  nullnet_len = 1;
  NETSTACK_NETWORK.output(src);
}

PROCESS_THREAD(receiver, ev, data)
{
  PROCESS_BEGIN();
  nullnet_set_input_callback(hear);
  while(1) {
    PROCESS_WAIT_EVENT();
  }
  PROCESS_END();
}
