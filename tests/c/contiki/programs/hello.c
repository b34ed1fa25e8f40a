/* As hello-world: a greeting every ten seconds. */
#include "contiki.h"
#include "sys/node-id.h"

#include <stdio.h> /* For printf() */

PROCESS(greeting_process, "Greeting process");
AUTOSTART_PROCESSES(&greeting_process);

PROCESS_THREAD(greeting_process, ev, data)
{
  static struct etimer timer;

  PROCESS_BEGIN();

  etimer_set(&timer, CLOCK_SECOND * 10);

  while(1) {
    printf("Hello from node %u\n", node_id);
    PROCESS_WAIT_EVENT_UNTIL(etimer_expired(&timer));
    etimer_reset(&timer);
  }

  PROCESS_END();
}
