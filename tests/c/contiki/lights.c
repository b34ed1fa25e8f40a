/* Two lights, each a protothread, driven by one process. */
#include "contiki.h"
#include "dev/serial-line.h"
#include <stdio.h>

PROCESS(lights, "Lights");
AUTOSTART_PROCESSES(&lights);

static struct pt north, east;
static struct etimer beat;
static int beats, requests;

static PT_THREAD(run_north(struct pt *pt))
{
  PT_BEGIN(pt);
  while(1) {
    printf("%d north green\n", beats);
    PT_YIELD_UNTIL(pt, beats % 4 == 2);
    printf("%d north red\n", beats);
    PT_YIELD_UNTIL(pt, beats % 4 == 0);
  }
  PT_END(pt);
}

static PT_THREAD(run_east(struct pt *pt))
{
  PT_BEGIN(pt);
  for(;;) {
    PT_YIELD_UNTIL(pt, requests > 0 && beats % 4 == 2);
    printf("%d east green, %d waited\n", beats, requests);
    requests = 0;
    PT_YIELD(pt);
    printf("%d east red\n", beats);
    if(beats > 8) {
      PT_EXIT(pt);
    }
  }
  PT_END(pt);
}

PROCESS_THREAD(lights, ev, data)
{
  PROCESS_BEGIN();
  PT_INIT(&north);
  PT_INIT(&east);
  etimer_set(&beat, CLOCK_SECOND);
  run_north(&north);
  while(PT_SCHEDULE(run_east(&east))) {
    PROCESS_WAIT_EVENT();
    if(ev == serial_line_event_message) {
      requests++;
      printf("request %s\n", (char *)data);
    } else if(ev == PROCESS_EVENT_TIMER) {
      beats++;
      etimer_reset(&beat);
      run_north(&north);
    }
  }
  printf("east is done\n");
  PROCESS_END();
}
