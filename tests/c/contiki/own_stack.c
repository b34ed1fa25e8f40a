/* A process that takes a turn on a stack of its own: what lies near that, as this timer, isn't on it. */
#define _XOPEN_SOURCE 700
#include "contiki.h"

#include <pthread.h>
#include <stdio.h>

PROCESS(inner, "Inner");
PROCESS(outer, "Outer");
AUTOSTART_PROCESSES(&inner, &outer);

static struct {
  struct etimer timer;
  _Alignas(64) char stack[1 << 20];
} room;

PROCESS_THREAD(inner, ev, data)
{
  PROCESS_BEGIN();

  PROCESS_WAIT_EVENT_UNTIL(ev == PROCESS_EVENT_MSG);
  etimer_set(&room.timer, 5);
  PROCESS_WAIT_EVENT_UNTIL(etimer_expired(&room.timer));
  printf("told\n");

  PROCESS_END();
}

static void *
post(void *nothing)
{
  process_post_synch(&inner, PROCESS_EVENT_MSG, NULL);
  return nothing;
}

PROCESS_THREAD(outer, ev, data)
{
  pthread_attr_t attributes;
  pthread_t thread;

  PROCESS_BEGIN();

  pthread_attr_init(&attributes);
  pthread_attr_setstack(&attributes, room.stack, sizeof room.stack);
  pthread_create(&thread, &attributes, post, NULL);
  pthread_join(thread, NULL);
  pthread_attr_destroy(&attributes);

  PROCESS_END();
}
