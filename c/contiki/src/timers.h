/* What timers.c and callbacks.c share: cells, in which the driver notes what it knows of the mote's timers. */
#ifndef TIMERS_H_
#define TIMERS_H_

#include "driver.h"

#pragma GCC visibility push(hidden)

/* What the driver knows of a timer in the mote. */
struct cell {
  const void *timer;     /* the struct etimer or ctimer that has it, or NULL */
  clock_time_t start;    /* as the mote has it */
  clock_time_t interval; /* as the mote has it */
  uint32_t set_in;       /* the round in which it was armed last */
  bool is_armed : 1;     /* and neither stopped nor received since */
  unsigned waiting : 31; /* events in the queue from before it was armed last */
};

static const clock_time_t NEVER = (clock_time_t)-1;

/* timers.c */
clock_time_t left_of(clock_time_t start, clock_time_t interval);
uint32_t checked_interval(clock_time_t interval);
bool has_run_out(const struct cell *cell);
unsigned slot_of(const void *timer, const struct cell *cells, unsigned count);
unsigned free_slot(const void *timer, const struct cell *cells, unsigned count);
void note_armed(struct cell *cell, clock_time_t start, clock_time_t interval);
clock_time_t least_end(const struct cell *cells, unsigned count, clock_time_t least);
void check_cells(const struct cell *cells, unsigned count, const void *frame, const char *what);
void note_question(void);

/* callbacks.c */
clock_time_t least_callback(unsigned index, clock_time_t least);

#pragma GCC visibility pop

#endif
