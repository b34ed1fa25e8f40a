/* energest.h, in ticks of the clock: only the program's sources know its CLOCK_SECOND. */
#define ENERGEST_CONF_ON 1
#include "sys/energest.h"

#include <stdbool.h>
#include <string.h>

enum { TYPES = 16 };

/* The radio, if the program names it. */
extern const bool mote_radio_is_on __attribute__((weak));

/* CPU is on from the mote's first tick, and so is a radio. */
static bool is_on[TYPES] = {[ENERGEST_TYPE_CPU] = true};
static bool has_begun;
static clock_time_t on_since[TYPES];
static uint64_t total[TYPES];

/* Before the first call it isn't known whether there is a radio. */
static void
begin(void)
{
  is_on[ENERGEST_TYPE_LISTEN] |= !has_begun && &mote_radio_is_on != NULL;
  has_begun = true;
}

/* Adds up what has been on until now. */
static void
add_up(unsigned type)
{
  clock_time_t now = clock_time();
  if(is_on[type]) {
    total[type] += now - on_since[type];
  }
  on_since[type] = now;
}

void
energest_init(void)
{
  memset(total, 0, sizeof total);
  memset(is_on, 0, sizeof is_on);
  has_begun = true;
  energest_turn(ENERGEST_TYPE_CPU, 1);
  if(&mote_radio_is_on != NULL && mote_radio_is_on) {
    energest_turn(ENERGEST_TYPE_LISTEN, 1);
  }
}

void
energest_flush(void)
{
  begin();
  for(unsigned type = 0; type < TYPES; type++) {
    if(is_on[type]) {
      add_up(type);
    }
  }
}

void
energest_turn(unsigned type, int on)
{
  begin();
  if(type < TYPES) {
    add_up(type);
    is_on[type] = on != 0;
  }
}

uint64_t
energest_clock_ticks(unsigned type)
{
  return type < TYPES ? total[type] : 0;
}

void
energest_set_clock_ticks(unsigned type, uint64_t ticks)
{
  if(type < TYPES) {
    total[type] = ticks;
  }
}
