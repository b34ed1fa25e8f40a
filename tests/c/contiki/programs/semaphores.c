/* As the example of pt-sem.h: a protothread fills a belt of two places, and another one empties it, an item a second. */
#include "contiki.h"
#include "sys/pt-sem.h"

#include <stdio.h>

#define PLACES 2
#define ITEMS 5

static struct pt_sem filled, empty;
static int belt[PLACES];

static PT_THREAD(fill(struct pt *pt))
{
  static int item;

  PT_BEGIN(pt);

  for(item = 0; item < ITEMS; item++) {
    PT_SEM_WAIT(pt, &empty);
    belt[item % PLACES] = item * item;
    printf("put %d\n", item * item);
    PT_SEM_SIGNAL(pt, &filled);
  }

  PT_END(pt);
}

static PT_THREAD(drain(struct pt *pt))
{
  static struct etimer pause;
  static int item;

  PT_BEGIN(pt);

  for(item = 0; item < ITEMS; item++) {
    PT_SEM_WAIT(pt, &filled);
    printf("got %d\n", belt[item % PLACES]);
    PT_SEM_SIGNAL(pt, &empty);
    etimer_set(&pause, CLOCK_SECOND);
    PT_WAIT_UNTIL(pt, etimer_expired(&pause));
  }

  PT_END(pt);
}

PROCESS(belt_process, "Belt");
AUTOSTART_PROCESSES(&belt_process);

PROCESS_THREAD(belt_process, ev, data)
{
  static struct pt filler, drainer;
  static int is_filling = 1;

  PROCESS_BEGIN();

  PT_SEM_INIT(&filled, 0);
  PT_SEM_INIT(&empty, PLACES);
  PT_INIT(&filler);
  PT_INIT(&drainer);
  for(;;) {
    is_filling = is_filling && PT_SCHEDULE(fill(&filler));
    if(!PT_SCHEDULE(drain(&drainer))) {
      break;
    }
    PROCESS_YIELD();
  }
  printf("done\n");

  PROCESS_END();
}
