/*
 * What stands in for the driver and the mote around the IPv6 stack, for tests of its receiving side: the clock is a variable, timers are in
 * a list, heap blocks are those of malloc, so that the sanitizers see their ends, and frames that are sent go to `sent_frame`. It is
 * included in one source, which is compiled with CONTIKI_MODULE, beside the stack and framer.c.
 */
#ifndef IPV6_HOST_H
#define IPV6_HOST_H

#include "driver.h"
#include "ipv6/stack.h"

#include <stdlib.h>

#include "net/routing/routing.h"
#include "sys/node-id.h"

enum { SECOND = 128, TIMERS = 8 };

const clock_time_t contiki_clock_second = SECOND;
const struct ipv6_settings mote_ipv6_settings = {
  .buffer_size = 1280,
  .nodes = 40,
  .lifetime_unit = 60,
  .hop_rank_increase = 128,
  .connections = 10,
  .hop_limit = 64,
  .neighbors = 4,
  .frames = 16,
  .dio_interval = 12,
  .dio_doublings = 8,
  .lifetime = 30,
  .dao_tries = 5,
  .dis_interval = 30 * SECOND,
  .dao_delay = 4 * SECOND,
  .dao_timeout = 5 * SECOND,
  .probing_interval = 60 * SECOND,
};

struct process *process_current;
uint16_t node_id;

static clock_time_t host_clock;
static radio_callback host_callback;
static struct ctimer *host_timers[TIMERS];
static bool host_is_polled;
static uint64_t host_random;

/* Receives each frame that the stack sends. */
static void sent_frame(const uint8_t *frame, size_t length);

clock_time_t
clock_time(void)
{
  return host_clock;
}

clock_time_t
mote_radio_clock(void)
{
  return host_clock;
}

void
random_init(unsigned short seed)
{
  host_random = seed;
}

unsigned short
random_rand(void)
{
  host_random = host_random * 6364136223846793005u + 1442695040888963407u;
  return (unsigned short)(host_random >> 48);
}

void
mote_radio_set_callback(radio_callback callback)
{
  host_callback = callback;
}

size_t
mote_radio_write_header(uint8_t *header, const linkaddr_t *to)
{
  write_header(header, to);
  return header_length(to);
}

bool
mote_radio_send(const uint8_t *frame, size_t length)
{
  sent_frame(frame, length);
  return true;
}

const struct toarmuts_turn *
mote_told(void)
{
  static struct toarmuts_turn turn;
  turn.process = tcpip_process.number;
  return &turn;
}

void *
heapmem_alloc(size_t size)
{
  return malloc(size);
}

bool
heapmem_free(void *ptr)
{
  free(ptr);
  return ptr != NULL;
}

void
lc_lost(lc_t line)
{
  (void)line;
  abort();
}

void
ctimer_stop(struct ctimer *c)
{
  for(unsigned i = 0; i < TIMERS; i++) {
    host_timers[i] = host_timers[i] == c ? NULL : host_timers[i];
  }
}

void
ctimer_set(struct ctimer *c, clock_time_t t, void (*f)(void *), void *ptr)
{
  unsigned i = 0;
  ctimer_stop(c);
  while(host_timers[i] != NULL) {
    i++;
  }
  host_timers[i] = c;
  c->f = f;
  c->ptr = ptr;
  c->etimer.timer.start = host_clock;
  c->etimer.timer.interval = t;
}

process_event_t
process_alloc_event(void)
{
  return 140;
}

void
process_poll(struct process *p)
{
  host_is_polled |= p == &tcpip_process;
}

void
process_post_synch(struct process *p, process_event_t ev, process_data_t data)
{
  p->thread(&p->pt, ev, data);
}

static void
run_polls(void)
{
  while(host_is_polled) {
    host_is_polled = false;
    tcpip_process.thread(&tcpip_process.pt, PROCESS_EVENT_POLL, NULL);
  }
}

/* The timer that ends first, at this tick at the latest; NULL if there is none. */
static struct ctimer *
first_timer(clock_time_t limit)
{
  struct ctimer *first = NULL;
  for(unsigned i = 0; i < TIMERS; i++) {
    struct ctimer *c = host_timers[i];
    clock_time_t end = c == NULL ? 0 : c->etimer.timer.start + c->etimer.timer.interval;
    if(c != NULL && end <= limit && (first == NULL || end < first->etimer.timer.start + first->etimer.timer.interval)) {
      first = c;
    }
  }
  return first;
}

/* Time passes, and timers run out. */
static void
pass_time(clock_time_t ticks)
{
  clock_time_t end = host_clock + ticks;
  struct ctimer *c;
  while((c = first_timer(end)) != NULL) {
    clock_time_t due = c->etimer.timer.start + c->etimer.timer.interval;
    host_clock = MAX(host_clock, due);
    ctimer_stop(c);
    c->f(c->ptr);
    run_polls();
  }
  host_clock = end;
}

/* A frame arrives: a copy of exactly its length, so that a sanitizer sees its end. */
static void
deliver(const uint8_t *frame, size_t length)
{
  uint8_t *copy = malloc(length);
  size_t header;
  memcpy(copy, frame, length);
  if(length > 0 && take_header(copy, length, &header)) {
    host_callback(copy, length, header);
    run_polls();
  }
  free(copy);
}

/* Boots the mote of this number in a network. */
static void
start_mote(uint16_t number)
{
  process_current = &tcpip_process;
  tcpip_process.number = 4;
  join_network(number, 1);
  tcpip_process.thread(&tcpip_process.pt, PROCESS_EVENT_INIT, NULL);
  run_polls();
}

#endif
