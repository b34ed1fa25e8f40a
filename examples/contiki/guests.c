/* A list of the last three guests, whose names arrive on the serial line, in blocks of a pool. */
#include "contiki.h"
#include "dev/serial-line.h"
#include "lib/list.h"
#include "lib/memb.h"

#include <stdio.h>
#include <string.h>

PROCESS(reception, "Reception");
AUTOSTART_PROCESSES(&reception);

struct guest {
  struct guest *next;
  char name[16];
};

MEMB(rooms, struct guest, 3);
LIST(guests);

/* A block for another guest; if there is none, the guest who came first leaves. */
static struct guest *
take_room(void)
{
  struct guest *guest = memb_alloc(&rooms);
  if(guest == NULL) {
    guest = list_pop(guests);
    printf("%s leaves\n", guest->name);
    memb_free(&rooms, guest);
    guest = memb_alloc(&rooms);
  }
  return guest;
}

PROCESS_THREAD(reception, ev, data)
{
  PROCESS_BEGIN();

  memb_init(&rooms);
  list_init(guests);
  while(1) {
    struct guest *guest;
    PROCESS_WAIT_EVENT_UNTIL(ev == serial_line_event_message);
    guest = take_room();
    strncpy(guest->name, data, sizeof guest->name - 1);
    list_add(guests, guest);
    for(guest = list_head(guests); guest != NULL; guest = list_item_next(guest)) {
      printf("%s%s", guest->name, list_item_next(guest) != NULL ? ", " : "");
    }
    printf(": %d of %d\n", list_length(guests), (int)(list_length(guests) + memb_numfree(&rooms)));
  }

  PROCESS_END();
}
