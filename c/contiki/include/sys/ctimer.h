/*
 * Callback timers: one that runs out calls a function, with the process that set it as the current one, also if that has ended.
 */
#ifndef CTIMER_H_
#define CTIMER_H_

#include <stdbool.h>

#include "sys/etimer.h"
#include "sys/process.h"

struct ctimer {
  struct process *p;
  void (*f)(void *);
  void *ptr;
  struct etimer etimer;
};

/* Calls f(ptr) after this number of ticks. */
void ctimer_set(struct ctimer *c, clock_time_t t, void (*f)(void *), void *ptr);

/* The same for another process than the current one. */
void ctimer_set_with_process(struct ctimer *c, clock_time_t t, void (*f)(void *), void *ptr, struct process *p);

/* If it has run out: the same interval again, from its end on. */
void ctimer_reset(struct ctimer *c);

/* The same interval again, from now on. */
void ctimer_restart(struct ctimer *c);

void ctimer_stop(struct ctimer *c);

/* Whether it ran out, was stopped, or was never set. */
bool ctimer_expired(struct ctimer *c);

CC_REFUSED("callback timers are ready from the start: leave this call out") void ctimer_init(void);

#endif
