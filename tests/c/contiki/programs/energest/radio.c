/* A radio that sleeps: frames that arrive meanwhile are dropped, and the time for which it listens is counted. */
#include "contiki.h"
#include "net/netstack.h"
#include "net/nullnet/nullnet.h"
#include "sys/energest.h"

PROCESS(sleeper, "Sleeper");
AUTOSTART_PROCESSES(&sleeper);

static uint8_t byte = 7;

static void
input(const void *data, uint16_t len, CC_UNUSED const linkaddr_t *src, CC_UNUSED const linkaddr_t *dest)
{
  printf("frame %d of %d at %lu\n", *(const uint8_t *)data, len, clock_seconds());
}

static void
report(void)
{
  energest_flush();
  printf("listening %lu of %lu\n", (unsigned long)energest_type_time(ENERGEST_TYPE_LISTEN),
         (unsigned long)energest_type_time(ENERGEST_TYPE_CPU));
}

PROCESS_THREAD(sleeper, ev, data)
{
  static struct etimer timer;

  PROCESS_BEGIN();

  nullnet_set_input_callback(input);
  etimer_set(&timer, CLOCK_SECOND);
  PROCESS_WAIT_EVENT_UNTIL(etimer_expired(&timer));
  printf("off %d\n", NETSTACK_RADIO.off());
  nullnet_buf = &byte;
  nullnet_len = 1;
  NETSTACK_NETWORK.output(NULL);
  etimer_reset(&timer);
  PROCESS_WAIT_EVENT_UNTIL(etimer_expired(&timer));
  printf("on %d\n", NETSTACK_RADIO.on());
  etimer_reset(&timer);
  PROCESS_WAIT_EVENT_UNTIL(etimer_expired(&timer));
  report();
  energest_init();
  etimer_set(&timer, CLOCK_SECOND / 2);
  PROCESS_WAIT_EVENT_UNTIL(etimer_expired(&timer));
  report();

  PROCESS_END();
}
