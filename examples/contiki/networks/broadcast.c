/* Each mote sends a counter to all that hear it, every eight seconds, and prints what it hears. */
#include "contiki.h"
#include "net/netstack.h"
#include "net/nullnet/nullnet.h"
#include "sys/log.h"

#define LOG_MODULE "Count"
#define LOG_LEVEL LOG_LEVEL_INFO
#define INTERVAL (8 * CLOCK_SECOND)

PROCESS(counter, "Counter");
AUTOSTART_PROCESSES(&counter);

static void
hear(const void *data, uint16_t len, const linkaddr_t *src, const linkaddr_t *dest)
{
  (void)dest;
  if(len == 1) {
    LOG_INFO("%u from ", *(const uint8_t *)data);
    LOG_INFO_LLADDR(src);
    LOG_INFO_("\n");
  }
}

PROCESS_THREAD(counter, ev, data)
{
  static struct etimer timer;
  static uint8_t count;

  PROCESS_BEGIN();
  nullnet_set_input_callback(hear);
  etimer_set(&timer, INTERVAL);
  while(1) {
    PROCESS_WAIT_EVENT_UNTIL(etimer_expired(&timer));
    count++;
    nullnet_buf = &count;
    nullnet_len = sizeof count;
    NETSTACK_NETWORK.output(NULL);
    etimer_reset(&timer);
  }
  PROCESS_END();
}
