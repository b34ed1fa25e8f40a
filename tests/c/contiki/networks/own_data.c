/* Each mote has static data of its own, of each kind. Functions and variables may be called as the driver's are. */
#include "contiki.h"
#include "contiki-net.h"
#include "sys/node-id.h"
#include <stdlib.h>

struct item {
  struct item *next;
  unsigned number;
};

MEMB(items, struct item, 8);
LIST(list);
PROCESS(keeper, "Keeper");
PROCESS(other, "Other");
AUTOSTART_PROCESSES(&keeper, &other);

int initialised = 40, zero, *pointer = &initialised;
static char text[64] = "t";
static unsigned *block;
unsigned network, present, motes, host, stop_count;

static unsigned
calls(void)
{
  static unsigned count;
  return ++count;
}

void
stop(void)
{
  stop_count++;
}

unsigned
switch_to(unsigned number)
{
  return network += number;
}

static void
add_item(void)
{
  struct item *item = memb_alloc(&items);
  if(item != NULL) {
    item->number = (unsigned)zero;
    list_push(list, item);
  }
}

PROCESS_THREAD(keeper, ev, data)
{
  PROCESS_BEGIN();
  memb_init(&items);
  block = heapmem_calloc(1, sizeof *block);
  while(1) {
    PROCESS_WAIT_EVENT_UNTIL(ev == serial_line_event_message);
    zero++;
    (*pointer)++;
    (*block)++;
    strcat(text, data);
    add_item();
    stop();
    switch_to(2);
    process_post(&other, PROCESS_EVENT_MSG, text);
  }
  PROCESS_END();
}

PROCESS_THREAD(other, ev, data)
{
  PROCESS_BEGIN();
  while(1) {
    PROCESS_WAIT_EVENT_UNTIL(ev == PROCESS_EVENT_MSG);
    printf("%u: %d %d %u %s %d %u %u", node_id, zero, initialised, *block, (char *)data, list_length(list), calls(), network);
    printf(" %u %u %u %u %d\n", stop_count, present, motes, host, rand() >= 0);
  }
  PROCESS_END();
}
