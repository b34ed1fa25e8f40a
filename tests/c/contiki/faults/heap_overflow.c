/* Writes behind a block of heap memory, when its timer runs out. */
#include "contiki.h"

PROCESS(faulty, "Faulty");
AUTOSTART_PROCESSES(&faulty);

PROCESS_THREAD(faulty, ev, data)
{
  static struct etimer timer;
  static char *text;
  static size_t length = 8;

  PROCESS_BEGIN();

  text = heapmem_alloc(length);
  etimer_set(&timer, 1);
  PROCESS_WAIT_EVENT_UNTIL(etimer_expired(&timer));
  text[length] = 'x';
  heapmem_free(text);

  PROCESS_END();
}
