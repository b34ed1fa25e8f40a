/* Processes that end, themselves and within one another, and begin again; data of events; a full queue. What comes of it stands in
 * ends.text. */
#include "contiki.h"
#include "mote.h"

PROCESS(keeper, "Keeper");
PROCESS(left, "Left");
PROCESS(right, "Right");
PROCESS(brief, "Brief");
PROCESS(guest, "Guest");
/* One that is named twice is started once. */
AUTOSTART_PROCESSES(&keeper, &left, &right, &brief, &keeper);

static struct process *const guests[] = {&guest, &brief, NULL};
static uint64_t told_number;
static void *told_data;

static void
tell_end(process_event_t ev, process_data_t data)
{
  if(ev == PROCESS_EVENT_EXITED) {
    printf("%s: %s has ended\n", PROCESS_CURRENT()->name, PROCESS_NAME_STRING((struct process *)data));
  }
}

/* Told that Brief has ended, it ends for the first time. */
PROCESS_THREAD(left, ev, data)
{
  static bool has_ended;

  PROCESS_BEGIN();

  while(1) {
    PROCESS_WAIT_EVENT();
    tell_end(ev, data);
    if(ev == PROCESS_EVENT_EXITED && data == &brief && !has_ended) {
      has_ended = true;
      process_exit(PROCESS_CURRENT());
    } else if(ev == PROCESS_EVENT_MSG) {
      told_number = mote_told()->number;
      told_data = data;
    } else if(ev == PROCESS_EVENT_COM) {
      printf("Left: %d to all\n", (int)(uintptr_t)data);
    }
  }

  PROCESS_END();
}

/* What it starts has ended, and is there until all are told. */
PROCESS_THREAD(right, ev, data)
{
  PROCESS_BEGIN();

  printf("Right: begins\n");
  while(1) {
    PROCESS_WAIT_EVENT();
    tell_end(ev, data);
    if(ev == PROCESS_EVENT_EXITED) {
      process_start(data, NULL);
    }
  }

  PROCESS_END();
}

PROCESS_THREAD(brief, ev, data)
{
  PROCESS_BEGIN();

  PROCESS_WAIT_EVENT_UNTIL(ev == serial_line_event_message || ev == PROCESS_EVENT_MSG);
  if(ev == serial_line_event_message) {
    process_exit(PROCESS_CURRENT());
    printf("Brief: goes\n");
    PROCESS_WAIT_EVENT();
  }

  PROCESS_END();
}

PROCESS_THREAD(guest, ev, data)
{
  PROCESS_EXITHANDLER(printf("Guest: leaves\n"));
  PROCESS_BEGIN();

  printf("Guest: begins\n");
  PROCESS_WAIT_EVENT();

  PROCESS_END();
}

static void
try_data(void)
{
  static char many[100];
  for(unsigned i = 0; i < sizeof many; i++) {
    process_post_synch(&left, PROCESS_EVENT_MSG, &many[i]);
  }
  process_post_synch(&left, PROCESS_EVENT_MSG, &many[1]);
  printf("%d %d\n", (int)told_number, told_data == &many[1]);
  process_post_synch(&left, PROCESS_EVENT_MSG, (void *)(uintptr_t)65535);
  printf("%d %d\n", (int)told_number, told_data == (void *)(uintptr_t)65535);
  process_post_synch(&left, PROCESS_EVENT_MSG, (void *)(uintptr_t)65536);
  printf("%d %d\n", (int)told_number, told_data == (void *)(uintptr_t)65536);
}

PROCESS_THREAD(keeper, ev, data)
{
  unsigned posted = 0;
  struct etimer leftover;

  PROCESS_BEGIN();

  while(ev != serial_line_event_message) {
    PROCESS_WAIT_EVENT();
    tell_end(ev, data);
  }
  process_start(&brief, NULL);
  process_start(&left, NULL);
  process_post_synch(&brief, PROCESS_EVENT_MSG, NULL);
  process_exit(&right);
  process_start(&right, NULL);
  autostart_start(guests);
  autostart_exit(guests);
  process_poll(NULL);
  /* It lies on the stack, and this process ends before another wait of its own. */
  etimer_set(&leftover, 5);
  try_data();
  process_post(PROCESS_BROADCAST, PROCESS_EVENT_COM, (void *)(uintptr_t)7);
  /* The queue has 32 places: the broadcast has one, and process 2 posts an event to itself behind a line. */
  while(posted < 40 && process_post(PROCESS_CURRENT(), PROCESS_EVENT_CONTINUE, NULL) == PROCESS_ERR_OK) {
    posted++;
  }
  printf("%u\n", posted);

  PROCESS_END();
}
