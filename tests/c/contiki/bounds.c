/* Timers at their bounds, set again in each way, and those of a process that ends: what they answer stands in bounds.text. */
#include "contiki.h"
#include "mote.h"

PROCESS(bounds, "Bounds");
PROCESS(neighbour, "Neighbour");
AUTOSTART_PROCESSES(&bounds, &neighbour);

static struct timer passive;
static struct stimer seconds;
static struct etimer first, longest, eight[8], ninth, theirs;
static struct ctimer callback, another, at_once, six[6], theirs_too;
static unsigned in_turn;

#define NEXT_LINE() PROCESS_WAIT_EVENT_UNTIL(ev == serial_line_event_message)
#define NEXT_TIMER() PROCESS_WAIT_EVENT_UNTIL(ev == PROCESS_EVENT_TIMER)

/* Tells whether the timer that it is given has expired. The callback that is given `another` is set once more. */
static void
called(void *ptr)
{
  printf("%s at %lu: %d\n", PROCESS_CURRENT()->name, clock_time(), ctimer_expired(ptr));
  if(ptr == &another) {
    ctimer_reset(&callback);
    printf("next %lu\n", etimer_next_expiration_time());
  }
}

PROCESS_THREAD(neighbour, ev, data)
{
  PROCESS_BEGIN();

  while(1) {
    PROCESS_WAIT_EVENT_UNTIL(ev == PROCESS_EVENT_MSG || ev == PROCESS_EVENT_CONTINUE || ev == PROCESS_EVENT_TIMER);
    if(ev == PROCESS_EVENT_CONTINUE) {
      PROCESS_EXIT();
    } else if(ev == PROCESS_EVENT_TIMER) {
      printf("Neighbour's timer at %lu\n", clock_time());
    } else {
      etimer_set(&theirs, 50);
      ctimer_set(&theirs_too, 50, called, &theirs_too);
    }
  }

  PROCESS_END();
}

static void
ask_often(void)
{
  for(unsigned i = 0; i < 600000; i++) {
    etimer_expired(&first);
  }
}

PROCESS_THREAD(bounds, ev, data)
{
  PROCESS_BEGIN();

  /* Clock 0. */
  timer_set(&passive, 10);
  stimer_set(&seconds, 1);
  NEXT_LINE();
  /* Clock 9. */
  timer_reset(&passive);
  printf("%lu %d %lu\n", passive.start, timer_expired(&passive), timer_remaining(&passive));
  NEXT_LINE();
  /* Clock 10. */
  printf("%d", timer_expired(&passive));
  timer_reset(&passive);
  printf(" %lu %d\n", passive.start, timer_expired(&passive));
  NEXT_LINE();
  /* Clock 13. */
  timer_restart(&passive);
  printf("%lu %lu\n", passive.start, timer_remaining(&passive));
  printf("%d %d %d\n", CLOCK_LT(5, 6), CLOCK_LT(6, 6), CLOCK_LT((clock_time_t)-1, 0));
  NEXT_LINE();
  /* Clock 127. */
  stimer_reset(&seconds);
  printf("%lu %d %lu\n", seconds.start, stimer_expired(&seconds), stimer_remaining(&seconds));
  NEXT_LINE();
  /* Clock 300. */
  printf("%d", stimer_expired(&seconds));
  stimer_reset(&seconds);
  printf(" %lu %d %lu\n", seconds.start, stimer_expired(&seconds), stimer_remaining(&seconds));
  stimer_restart(&seconds);
  printf("%lu %d %lu\n", seconds.start, stimer_expired(&seconds), stimer_remaining(&seconds));

  /* A process that ends, and one that is ended: its event timers don't run out, and are set as far as their structs say. */
  process_post_synch(&neighbour, PROCESS_EVENT_MSG, NULL);
  printf("%d %lu\n", etimer_pending(), etimer_next_expiration_time());
  process_post_synch(&neighbour, PROCESS_EVENT_CONTINUE, NULL);
  printf("%d %lu %d\n", etimer_pending(), etimer_next_expiration_time(), etimer_expired(&theirs));
  etimer_stop(&theirs);
  ctimer_stop(&theirs_too);
  printf("%d\n", etimer_expired(&theirs));
  process_start(&neighbour, NULL);
  process_post_synch(&neighbour, PROCESS_EVENT_MSG, NULL);
  process_exit(&neighbour);
  printf("%d %d\n", etimer_pending(), etimer_expired(&theirs));

  etimer_set(&longest, UINT32_MAX);
  printf("%lu\n", etimer_expiration_time(&longest));
  etimer_stop(&longest);
  /* The struct may have held anything. */
  memset(&first, 0x5a, sizeof first);
  etimer_set(&first, 10);
  etimer_adjust(&first, -4);
  printf("%lu %lu\n", etimer_start_time(&first), etimer_expiration_time(&first));
  etimer_restart(&first);
  NEXT_TIMER();
  /* Not at clock 307, but at 310; of the mote's timers it has one that none had before. */
  printf("%lu %d\n", clock_time(), (int)mote_told()->number);
  etimer_adjust(&first, 3);
  printf("%lu %d\n", etimer_expiration_time(&first), etimer_expired(&first));
  NEXT_LINE();
  /* Clock 320: it was over at 313. */
  etimer_reset(&first);
  printf("%lu\n", etimer_expiration_time(&first));
  NEXT_TIMER();
  printf("%lu\n", clock_time());
  etimer_set(&first, 10);
  etimer_stop(&first);
  etimer_reset(&first);
  printf("%d\n", etimer_expired(&first));
  NEXT_TIMER();
  /* Clock 333. An end before clock 0 is one that is over. */
  printf("%lu\n", clock_time());
  etimer_set(&first, 10);
  etimer_reset_with_new_interval(&first, 20);
  printf("%lu\n", etimer_expiration_time(&first));
  etimer_adjust(&first, -400);
  NEXT_TIMER();
  printf("%lu\n", clock_time());

  ctimer_set(&at_once, 0, NULL, NULL);
  printf("%d %d %lu\n", ctimer_expired(&at_once), etimer_pending(), etimer_next_expiration_time());
  NEXT_LINE();
  printf("%d\n", ctimer_expired(&at_once));
  ctimer_set(&callback, 20, called, &another);
  ctimer_set(&another, 20, called, &callback);
  printf("%lu\n", etimer_next_expiration_time());
  NEXT_LINE();
  /* Clock 360: both were due at 353, and one of them is due again at 373. */
  printf("%d\n", ctimer_expired(&callback));
  NEXT_LINE();
  /* Clock 365. */
  ctimer_restart(&callback);
  printf("%lu\n", etimer_next_expiration_time());
  process_start(&neighbour, NULL);
  ctimer_set_with_process(&callback, 30, called, &callback, &neighbour);
  /* Another process's timer, from 415 to 375. */
  process_post_synch(&neighbour, PROCESS_EVENT_MSG, NULL);
  etimer_adjust(&theirs, -40);
  NEXT_LINE();
  /* Clock 395. At 445 both run out, and this process is told first. */
  process_post_synch(&neighbour, PROCESS_EVENT_MSG, NULL);
  etimer_set(&first, 50);
  NEXT_TIMER();
  process_exit(&neighbour);
  printf("%d\n", etimer_expired(&theirs));

  /* The event of one waits while another one is set: it keeps its place. */
  for(unsigned i = 0; i < 8; i++) {
    etimer_set(&eight[i], i < 6 ? 100 : 5);
  }
  NEXT_TIMER();
  printf("%d\n", data == &eight[7]);
  etimer_stop(&eight[6]);
  etimer_set(&ninth, 200);
  NEXT_TIMER();
  printf("%d %d\n", data == &eight[6], etimer_expired(&eight[6]));

  ask_often();
  NEXT_LINE();
  ask_often();
  printf("asked\n");
  NEXT_LINE();
  /* Clock 4294967745. */
  etimer_set(&first, 70000);
  printf("%lu %lu %lu\n", clock_time(), etimer_start_time(&first), etimer_expiration_time(&first));
  NEXT_TIMER();
  printf("%lu\n", clock_time());

  /* The mote's own call, whose callback the thread is told. */
  MOTE_ASK(TOARMUTS_CALL_CALLBACK_SET, 3, 5);
  PROCESS_WAIT_EVENT_UNTIL(ev == PROCESS_EVENT_NONE);
  printf("%d\n", (int)(uintptr_t)data);
  /* More than a process has at once, one after the other. */
  for(in_turn = 0; in_turn < 6; in_turn++) {
    ctimer_set(&six[in_turn], 0, NULL, NULL);
    PROCESS_PAUSE();
  }
  printf("%u\n", in_turn);

  PROCESS_END();
}
