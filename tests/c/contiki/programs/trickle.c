/* A Trickle timer: its intervals double; what was heard suppresses one message; an inconsistency begins anew. */
#include "contiki.h"
#include "lib/trickle-timer.h"

#include <stdio.h>

#define IMIN 16
#define IMAX 3
#define REDUNDANCY 1

static struct trickle_timer tt;

PROCESS(trickle_process, "Trickle");
AUTOSTART_PROCESSES(&trickle_process);

static void
tx_callback(void *ptr, uint8_t suppress)
{
  clock_time_t passed = clock_time() - tt.i_start;
  printf("interval %lu: %s, in its %s half\n", tt.i_cur, suppress == TRICKLE_TIMER_TX_OK ? "sent" : "suppressed",
         passed >= tt.i_cur / 2 && clock_time() < TRICKLE_TIMER_INTERVAL_END(&tt) ? "second" : "first");
}

PROCESS_THREAD(trickle_process, ev, data)
{
  static struct etimer et;

  PROCESS_BEGIN();

  printf("no doubling: %d", trickle_timer_config(&tt, IMIN, 0, REDUNDANCY));
  printf(", too long: %d", trickle_timer_config(&tt, CLOCK_SECOND, 30, REDUNDANCY));
  printf(", well: %d\n", trickle_timer_config(&tt, IMIN, IMAX, REDUNDANCY));
  printf("set: %d, %d\n", trickle_timer_set(&tt, NULL, NULL), trickle_timer_set(&tt, tx_callback, NULL));
  printf("within: %d\n", tt.i_cur >= IMIN && tt.i_cur <= TRICKLE_TIMER_INTERVAL_MAX(&tt));
  trickle_timer_reset_event(&tt);

  etimer_set(&et, 20);
  PROCESS_WAIT_EVENT_UNTIL(etimer_expired(&et));
  trickle_timer_consistency(&tt);

  etimer_set(&et, 280);
  PROCESS_WAIT_EVENT_UNTIL(etimer_expired(&et));
  printf("interval %lu: inconsistent\n", tt.i_cur);
  trickle_timer_inconsistency(&tt);

  etimer_set(&et, 50);
  PROCESS_WAIT_EVENT_UNTIL(etimer_expired(&et));
  trickle_timer_stop(&tt);
  printf("running: %d\n", trickle_timer_is_running(&tt));

  PROCESS_END();
}
