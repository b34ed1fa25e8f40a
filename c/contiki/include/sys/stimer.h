/* Passive timers as in timer.h, in seconds. */
#ifndef STIMER_H_
#define STIMER_H_

#include <stdbool.h>

#include "sys/clock.h"

struct stimer {
  unsigned long start;
  unsigned long interval;
};

/* It runs out after this number of seconds. */
void stimer_set(struct stimer *t, unsigned long interval);

/* If it has run out: the same interval again, from its end on. */
void stimer_reset(struct stimer *t);

/* The same interval again, from now on. */
void stimer_restart(struct stimer *t);

/* Whether it has run out. An end that is more than half of all seconds away counts as ahead. */
bool stimer_expired(struct stimer *t);

/* The seconds that are left. Undefined once it has run out. */
unsigned long stimer_remaining(struct stimer *t);

/* The seconds since it was set. */
unsigned long stimer_elapsed(struct stimer *t);

#endif
