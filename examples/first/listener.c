/* Prints each count that it hears. */
#include "contiki.h"
#include "net/nullnet/nullnet.h"

#include <stdio.h>

PROCESS(listener, "Listener");
AUTOSTART_PROCESSES(&listener);

static void
hear(const void *data, uint16_t len, const linkaddr_t *src, const linkaddr_t *dest)
{
  (void)src;
  (void)dest;
  if(len == 1) {
    printf("heard %u\n", *(const uint8_t *)data);
  }
}

PROCESS_THREAD(listener, ev, data)
{
  PROCESS_BEGIN();
  nullnet_set_input_callback(hear);
  while(1) {
    PROCESS_WAIT_EVENT();
  }
  PROCESS_END();
}
