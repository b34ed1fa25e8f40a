/* As all-timers: each kind of timer, the real-time one set again by its callback. */
#include "contiki.h"

#include <stdio.h>

static struct timer timer_timer;
static struct stimer timer_stimer;
static struct ctimer timer_ctimer;
static struct rtimer timer_rtimer;
static rtimer_clock_t timeout_rtimer = RTIMER_SECOND / 2;

PROCESS(timers_process, "All timers");
AUTOSTART_PROCESSES(&timers_process);

static void
ctimer_callback(void *ptr)
{
  int *counter = ptr;
  (*counter)++;
  printf("ctimer %d at %lu ticks\n", *counter, (unsigned long)clock_time());
  if(*counter < 2) {
    ctimer_reset(&timer_ctimer);
  }
}

static void
rtimer_callback(struct rtimer *timer, void *ptr)
{
  static int count;
  rtimer_clock_t now = RTIMER_NOW();
  printf("rtimer %s at %lu ms, due %lu\n", (const char *)ptr, (unsigned long)now * 1000 / RTIMER_SECOND,
         (unsigned long)RTIMER_TIME(timer) * 1000 / RTIMER_SECOND);
  if(++count < 3) {
    rtimer_set(&timer_rtimer, now + timeout_rtimer, 0, rtimer_callback, ptr);
  }
}

PROCESS_THREAD(timers_process, ev, data)
{
  static struct etimer timer_etimer;
  static int counter;

  PROCESS_BEGIN();

  ctimer_set(&timer_ctimer, CLOCK_SECOND, ctimer_callback, &counter);
  if(rtimer_set(&timer_rtimer, RTIMER_NOW() + timeout_rtimer, 0, rtimer_callback, "half") != RTIMER_OK) {
    printf("no rtimer\n");
  }
  timer_set(&timer_timer, 3 * CLOCK_SECOND / 2);
  stimer_set(&timer_stimer, 2);
  etimer_set(&timer_etimer, CLOCK_SECOND);

  while(1) {
    PROCESS_WAIT_EVENT_UNTIL(ev == PROCESS_EVENT_TIMER);
    printf("etimer: timer %d, stimer %d, %lu s\n", timer_expired(&timer_timer), stimer_expired(&timer_stimer), clock_seconds());
    etimer_reset(&timer_etimer);
  }

  PROCESS_END();
}
