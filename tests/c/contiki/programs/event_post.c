/* As event-post: one process sends events of its own, another one gets them. */
#include "contiki.h"

#include <stdio.h>

PROCESS(sender_process, "Sender");
PROCESS(printer_process, "Printer");
AUTOSTART_PROCESSES(&printer_process, &sender_process);

static process_event_t event_data_ready;
static int readings[2];

PROCESS_THREAD(sender_process, ev, data)
{
  static struct etimer timer;
  static int valid_data;

  PROCESS_BEGIN();

  event_data_ready = process_alloc_event();
  etimer_set(&timer, CLOCK_CONF_SECOND);
  readings[0] = 20;
  readings[1] = 50;

  while(1) {
    PROCESS_WAIT_EVENT_UNTIL(ev == PROCESS_EVENT_TIMER);
    readings[0]++;
    valid_data = process_post(&printer_process, event_data_ready, readings);
    printf("sender: %s\n", valid_data == PROCESS_ERR_OK ? "posted" : "full");
    process_post_synch(&printer_process, PROCESS_EVENT_CONTINUE, &readings[1]);
    etimer_reset(&timer);
  }

  PROCESS_END();
}

PROCESS_THREAD(printer_process, ev, data)
{
  PROCESS_BEGIN();

  while(1) {
    PROCESS_YIELD_UNTIL(ev == event_data_ready || ev == PROCESS_EVENT_CONTINUE);
    if(ev == event_data_ready) {
      printf("printer: %d degrees\n", *(int *)data);
    } else {
      printf("printer: %d %%\n", *(int *)data);
    }
  }

  PROCESS_END();
}
