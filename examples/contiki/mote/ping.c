/*
 * The application ping of mote: broadcasts a count every five ticks, and prints each count that it is told. The first one is 0,
 * which as a pointer would be NULL, an event without data: so it makes the mote's own call.
 */
#include "contiki.h"
#include "mote.h"

#include <stdio.h>

PROCESS(ping, "ping");
AUTOSTART_PROCESSES(&ping);

static void
broadcast(process_event_t event, uint32_t count)
{
  struct toarmuts_call call = {.kind = TOARMUTS_CALL_BROADCAST, .numbers = {event}};
  call.payload = TOARMUTS_NUMBER;
  call.number = count;
  mote_call(&call);
}

PROCESS_THREAD(ping, ev, data)
{
  static struct etimer timer;
  static process_event_t event;
  static uint32_t count;

  PROCESS_BEGIN();

  event = process_alloc_event();
  etimer_set(&timer, 5);
  while(1) {
    PROCESS_WAIT_EVENT();
    if(ev == PROCESS_EVENT_TIMER) {
      broadcast(event, count);
      count += count < UINT32_MAX;
      etimer_reset(&timer);
    } else if(ev == event && mote_told()->payload == TOARMUTS_NUMBER) {
      printf("%u\n", (unsigned)mote_told()->number);
    }
  }

  PROCESS_END();
}
