/* As leds-example: each call is shown by the state after it. */
#include "contiki.h"
#include "dev/leds.h"

#include <stdio.h>

PROCESS(leds_process, "LEDs");
AUTOSTART_PROCESSES(&leds_process);

static struct etimer et;
static uint8_t counter;

PROCESS_THREAD(leds_process, ev, data)
{
  PROCESS_BEGIN();

  counter = 0;
  etimer_set(&et, CLOCK_SECOND);

  while(1) {
    PROCESS_YIELD();

    if(ev == PROCESS_EVENT_TIMER && data == &et) {
      if((counter & 3) == 0) {
        leds_set(LEDS_GREEN | LEDS_RED);
      } else if((counter & 3) == 1) {
        leds_off(LEDS_RED);
      } else if((counter & 3) == 2) {
        leds_toggle(LEDS_ALL);
      } else {
        leds_single_toggle(LEDS_LED2);
      }
      printf("%u: 0x%02X\n", counter, leds_get());
      counter++;
      etimer_reset(&et);
    }
  }

  PROCESS_END();
}
