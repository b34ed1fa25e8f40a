/* As simple-energest: a summary each minute. Here the program starts the module itself, and has a radio that sleeps for half a minute. */
#include "contiki.h"
#include "net/netstack.h"
#include "services/simple-energest/simple-energest.h"

PROCESS(sleeper, "Sleeper");
AUTOSTART_PROCESSES(&sleeper);

PROCESS_THREAD(sleeper, ev, data)
{
  static struct etimer timer;

  PROCESS_BEGIN();

  simple_energest_init();
  etimer_set(&timer, 75 * CLOCK_SECOND);
  PROCESS_WAIT_EVENT_UNTIL(etimer_expired(&timer));
  NETSTACK_RADIO.off();
  etimer_set(&timer, 30 * CLOCK_SECOND);
  PROCESS_WAIT_EVENT_UNTIL(etimer_expired(&timer));
  NETSTACK_RADIO.on();

  PROCESS_END();
}
