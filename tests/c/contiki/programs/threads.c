/* As multi-threading: two threads, one of which calls itself and yields within, that a process runs each second. */
#include "contiki.h"
#include "sys/mt.h"

PROCESS(runner, "Runner");
PROCESS(listener, "Listener");
AUTOSTART_PROCESSES(&listener, &runner);

static struct mt_thread alpha, beta;

static void
count_down(int depth)
{
  printf("%s %d\n", PROCESS_CURRENT()->name, depth);
  mt_yield();
  if(depth > 0) {
    count_down(depth - 1);
    printf("up %d\n", depth);
  }
}

static void
run_alpha(void *data)
{
  count_down(*(const int *)data);
}

/* It calls another process, and exits within a function. */
static void
run_beta(void *data)
{
  while(1) {
    process_post_synch(&listener, PROCESS_EVENT_MSG, data);
    mt_yield();
    if(clock_seconds() == 3) {
      mt_exit();
    }
  }
}

PROCESS_THREAD(listener, ev, data)
{
  PROCESS_BEGIN();

  while(1) {
    PROCESS_WAIT_EVENT_UNTIL(ev == PROCESS_EVENT_MSG);
    printf("%s: %s\n", PROCESS_CURRENT()->name, (const char *)data);
  }

  PROCESS_END();
}

PROCESS_THREAD(runner, ev, data)
{
  static struct etimer timer;
  static int depth = 2;

  PROCESS_BEGIN();

  mt_init();
  mt_start(&alpha, run_alpha, &depth);
  mt_start(&beta, run_beta, "from beta");
  while(alpha.state != MT_STATE_EXITED || beta.state != MT_STATE_EXITED) {
    mt_exec(&alpha);
    mt_exec(&beta);
    etimer_set(&timer, CLOCK_SECOND);
    PROCESS_WAIT_EVENT_UNTIL(etimer_expired(&timer));
  }
  /* Neither goes on. */
  mt_exec(&alpha);
  mt_exec(&beta);
  mt_yield();
  mt_stop(&alpha);
  mt_stop(&beta);
  mt_remove();
  printf("both ended at %lu\n", clock_seconds());

  PROCESS_END();
}
