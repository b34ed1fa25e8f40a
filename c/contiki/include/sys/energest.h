/*
 * Energest: the time for which each part was on, in ticks of ENERGEST_SECOND, by the mote's clock. As on Contiki-NG's native platform
 * the processor (CPU) is on from the start, and only the program turns another part on. An activation takes no time of the mote's
 * clock, so the time of CPU is the whole time, asleep or not.
 */
#ifndef ENERGEST_H_
#define ENERGEST_H_

#include <stdint.h>

#include "contiki-conf.h"
#include "sys/clock.h"
#include "sys/rtimer.h"

/* 0, the default without simple-energest: nothing is counted, and all times are 0. */
#ifndef ENERGEST_CONF_ON
#if BUILD_WITH_SIMPLE_ENERGEST
#define ENERGEST_CONF_ON 1
#else
#define ENERGEST_CONF_ON 0
#endif
#endif

typedef enum energest_type {
  ENERGEST_TYPE_CPU,
  ENERGEST_TYPE_LPM,
  ENERGEST_TYPE_DEEP_LPM,
  ENERGEST_TYPE_TRANSMIT,
  ENERGEST_TYPE_LISTEN,
#ifdef ENERGEST_CONF_PLATFORM_ADDITIONS
  ENERGEST_CONF_PLATFORM_ADDITIONS,
#endif
  ENERGEST_TYPE_MAX
} energest_type_t;

_Static_assert(ENERGEST_TYPE_MAX <= 16, "energest: at most 16 types");

#define ENERGEST_SECOND RTIMER_SECOND
#define ENERGEST_CURRENT_TIME RTIMER_NOW
#define ENERGEST_TIME_T rtimer_clock_t
#define ENERGEST_GET_TOTAL_TIME energest_get_total_time

#if ENERGEST_CONF_ON
/* The same in ticks of the clock. */
uint64_t energest_clock_ticks(unsigned type);
void energest_set_clock_ticks(unsigned type, uint64_t ticks);
void energest_turn(unsigned type, int on);

/* Starts again: CPU is on, all others are off, and all times are 0. */
void energest_init(void);

/* Adds up the times so far of what is on. */
void energest_flush(void);

/* A part goes on, or off. */
#define ENERGEST_ON(type) energest_turn((type), 1)
#define ENERGEST_OFF(type) energest_turn((type), 0)
#define ENERGEST_SWITCH(type_off, type_on) (ENERGEST_OFF(type_off), ENERGEST_ON(type_on))

/* The time for which it was on, up to when it last went off, or the last energest_flush. */
static inline uint64_t
energest_type_time(energest_type_t type)
{
  return energest_clock_ticks(type) * ENERGEST_SECOND / CLOCK_SECOND;
}

static inline void
energest_type_set(energest_type_t type, uint64_t value)
{
  energest_set_clock_ticks(type, value * CLOCK_SECOND / ENERGEST_SECOND);
}
#else
#define ENERGEST_ON(type) ((void)(type))
#define ENERGEST_OFF(type) ((void)(type))
#define ENERGEST_SWITCH(type_off, type_on) ((void)(type_off), (void)(type_on))

static inline void
energest_init(void)
{
}

static inline void
energest_flush(void)
{
}

static inline uint64_t
energest_type_time(energest_type_t type)
{
  (void)type;
  return 0;
}

static inline void
energest_type_set(energest_type_t type, uint64_t value)
{
  (void)type;
  (void)value;
}
#endif

/* The time in all three modes of the processor. */
static inline uint64_t
energest_get_total_time(void)
{
  return energest_type_time(ENERGEST_TYPE_CPU) + energest_type_time(ENERGEST_TYPE_LPM) + energest_type_time(ENERGEST_TYPE_DEEP_LPM);
}

#endif
