/*
 * Event timers: if one runs out, the process that set it receives PROCESS_EVENT_TIMER with the timer as data. A process has at most
 * eight set at once.
 */
#ifndef ETIMER_H_
#define ETIMER_H_

#include <stdbool.h>

#include "sys/process.h"
#include "sys/timer.h"

struct etimer {
  struct timer timer;
  /* The process that receives the event, or PROCESS_NONE if the timer isn't set. */
  struct process *p;
};

/* It runs out after this number of ticks. */
void etimer_set(struct etimer *et, clock_time_t interval);

/* If it has run out: the same interval again, from its end on. */
void etimer_reset(struct etimer *et);

/* The same with another interval. */
void etimer_reset_with_new_interval(struct etimer *et, clock_time_t interval);

/* The same interval again, from now on. */
void etimer_restart(struct etimer *et);

/* Moves the end by a number of ticks, which may be negative. */
void etimer_adjust(struct etimer *et, int td);

void etimer_stop(struct etimer *et);

/* Whether it ran out, was stopped, or was never set. */
bool etimer_expired(struct etimer *et);

/* The clock at which it runs out, and at which its interval began. */
clock_time_t etimer_expiration_time(struct etimer *et);
clock_time_t etimer_start_time(struct etimer *et);

/* Whether any timer is set, event timers and callback timers of all processes, and the clock at which the first runs out: 0 for
 * none. */
bool etimer_pending(void);
clock_time_t etimer_next_expiration_time(void);

CC_REFUSED("the mote polls its timers itself: leave this call out") void etimer_request_poll(void);

#endif
