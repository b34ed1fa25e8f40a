/* Timers whose start was moved: of one whose event waits in the queue, of one that begins a tick ahead, and of passive ones. */
#include "contiki.h"

PROCESS(only, "Only");
AUTOSTART_PROCESSES(&only);

static struct etimer first, second, unset;
static struct timer passive;
static struct stimer seconds;

PROCESS_THREAD(only, ev, data)
{
  PROCESS_BEGIN();

  etimer_set(&second, 5);
  etimer_set(&first, 5);
  PROCESS_WAIT_EVENT_UNTIL(ev == PROCESS_EVENT_TIMER && data == &first);
  etimer_adjust(&second, -2);
  printf("adjusted, expired %d, start %d\n", etimer_expired(&second), (int)etimer_start_time(&second));
  PROCESS_WAIT_EVENT_UNTIL(ev == PROCESS_EVENT_TIMER && data == &second);

  etimer_set(&first, 10);
  etimer_adjust(&first, 1);
  printf("a tick ahead, expired %d\n", etimer_expired(&first));
  PROCESS_WAIT_EVENT_UNTIL(etimer_expired(&first));
  printf("at %lu\n", clock_time());

  timer_set(&passive, 10);
  passive.start += 1;
  printf("a tick ahead, expired %d, %lu left\n", timer_expired(&passive), timer_remaining(&passive));
  passive.start += 1;
  printf("two ticks ahead, expired %d\n", timer_expired(&passive));
  stimer_set(&seconds, 1);
  seconds.start += 3;
  printf("three seconds ahead, expired %d, %lu left\n", stimer_expired(&seconds), stimer_remaining(&seconds));

  /* Bytes that nobody set. */
  unset.p = PROCESS_ZERO;
  printf("bytes, expired %d\n", etimer_expired(&unset));
  etimer_adjust(&unset, 1);
  etimer_stop(&unset);
  printf("stopped, expired %d\n", etimer_expired(&unset));

  PROCESS_END();
}
