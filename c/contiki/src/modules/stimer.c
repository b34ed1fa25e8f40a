/* stimer.h, in seconds of the program's CLOCK_SECOND. */
#include "sys/stimer.h"

#include <limits.h>

static unsigned long
seconds_now(void)
{
  return clock_time() / contiki_clock_second;
}

void
stimer_set(struct stimer *t, unsigned long interval)
{
  t->interval = interval;
  t->start = seconds_now();
}

void
stimer_reset(struct stimer *t)
{
  if(stimer_expired(t)) {
    t->start += t->interval;
  }
}

void
stimer_restart(struct stimer *t)
{
  t->start = seconds_now();
}

bool
stimer_expired(struct stimer *t)
{
  return seconds_now() - (t->start + t->interval) < ULONG_MAX / 2;
}

unsigned long
stimer_remaining(struct stimer *t)
{
  return t->start + t->interval - seconds_now();
}

unsigned long
stimer_elapsed(struct stimer *t)
{
  return seconds_now() - t->start;
}
