/* Sends a count every second, to all that hear it. */
#include "contiki.h"
#include "net/netstack.h"
#include "net/nullnet/nullnet.h"

#include <stdio.h>

PROCESS(beacon, "Beacon");
AUTOSTART_PROCESSES(&beacon);

PROCESS_THREAD(beacon, ev, data)
{
  static struct etimer timer;
  static uint8_t count;

  PROCESS_BEGIN();
  nullnet_buf = &count;
  nullnet_len = sizeof count;
  etimer_set(&timer, CLOCK_SECOND);
  while(1) {
    PROCESS_WAIT_EVENT_UNTIL(etimer_expired(&timer));
    count++;
    printf("pulse %u\n", count);
    NETSTACK_NETWORK.output(NULL);
    etimer_reset(&timer);
  }
  PROCESS_END();
}
