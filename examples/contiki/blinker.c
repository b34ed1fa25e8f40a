/* Toggles an LED every second, and prints its state. */
#include "contiki.h"
#include "dev/leds.h"

#include <stdio.h>

PROCESS(blinker, "Blinker");
AUTOSTART_PROCESSES(&blinker);

PROCESS_THREAD(blinker, ev, data)
{
  static struct etimer timer;

  PROCESS_BEGIN();

  etimer_set(&timer, CLOCK_SECOND);
  while(1) {
    PROCESS_WAIT_EVENT_UNTIL(etimer_expired(&timer));
    leds_toggle(LEDS_GREEN);
    printf("LED %s\n", (leds_get() & LEDS_GREEN) != 0 ? "on" : "off");
    etimer_reset(&timer);
  }

  PROCESS_END();
}
