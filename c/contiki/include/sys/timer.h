/* Passive timers: the program asks whether they have run out. */
#ifndef TIMER_H_
#define TIMER_H_

#include <stdbool.h>

#include "sys/clock.h"

struct timer {
  clock_time_t start;
  clock_time_t interval;
};

/* It runs out after this number of ticks. */
void timer_set(struct timer *t, clock_time_t interval);

/* If it has run out: the same interval again, from its end on. */
void timer_reset(struct timer *t);

/* The same interval again, from now on. */
void timer_restart(struct timer *t);

bool timer_expired(struct timer *t);

/* The ticks that are left. Undefined once it has run out. */
clock_time_t timer_remaining(struct timer *t);

#endif
