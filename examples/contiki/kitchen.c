/* Two processes that talk: a waiter orders dishes, each of which takes the kitchen some time, and closes the kitchen at the end. */
#include "contiki.h"

#include <stdio.h>

PROCESS(kitchen, "Kitchen");
PROCESS(waiter, "Waiter");
AUTOSTART_PROCESSES(&kitchen, &waiter);

struct order {
  const char *dish;
  clock_time_t ticks;
};

static process_event_t ordered, served;

PROCESS_THREAD(kitchen, ev, data)
{
  static struct order *order;
  static struct etimer cooking;

  PROCESS_EXITHANDLER(printf("the kitchen closes\n"));
  PROCESS_BEGIN();

  while(1) {
    PROCESS_WAIT_EVENT_UNTIL(ev == ordered);
    order = data;
    etimer_set(&cooking, order->ticks);
    PROCESS_WAIT_EVENT_UNTIL(etimer_expired(&cooking));
    process_post(&waiter, served, order);
  }

  PROCESS_END();
}

PROCESS_THREAD(waiter, ev, data)
{
  static struct order orders[] = {{"soup", 20}, {"cake", 30}};
  static unsigned i;

  PROCESS_BEGIN();

  ordered = process_alloc_event();
  served = process_alloc_event();
  for(i = 0; i < 2; i++) {
    process_post(&kitchen, ordered, &orders[i]);
    PROCESS_WAIT_EVENT_UNTIL(ev == served);
    printf("here is the %s\n", ((struct order *)data)->dish);
  }
  process_exit(&kitchen);
  printf("the kitchen is %s\n", process_is_running(&kitchen) ? "open" : "closed");

  PROCESS_END();
}
