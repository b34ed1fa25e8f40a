/*
 * Real-time timers. Their clock is the mote's: it advances in ticks of CLOCK_SECOND, and stands still within an activation. The
 * callback isn't in an interrupt: a callback timer of the process makes it, between activations, at the first tick that isn't before
 * the time.
 */
#ifndef RTIMER_H_
#define RTIMER_H_

#include <inttypes.h>
#include <stdbool.h>

#include "sys/cc.h"
#include "sys/clock.h"
#include "sys/ctimer.h"

typedef uint32_t rtimer_clock_t;
#define RTIMER_PRI PRIu32

#define RTIMER_SECOND 32768u
#define RTIMER_ARCH_SECOND RTIMER_SECOND

/* The time from b to a, and whether a is before b; the clock wraps round. */
#define RTIMER_CLOCK_DIFF(a, b) ((int32_t)((a) - (b)))
#define RTIMER_CLOCK_LT(a, b) (RTIMER_CLOCK_DIFF(a, b) < 0)

/* Microseconds in ticks and ticks in microseconds, rounded to the nearest. */
#define US_TO_RTIMERTICKS(us) ((rtimer_clock_t)((RTIMER_SECOND * (int64_t)(us) + ((int64_t)(us) < 0 ? -500000 : 500000)) / 1000000))
#define RTIMERTICKS_TO_US(ticks) \
  ((int32_t)((1000000 * (int64_t)(int32_t)(ticks) + ((int32_t)(ticks) < 0 ? -16384 : 16384)) / (int64_t)RTIMER_SECOND))
#define RTIMERTICKS_TO_US_64(ticks) ((uint32_t)((1000000 * (uint64_t)(ticks) + 16384) / RTIMER_SECOND))

#define RTIMER_GUARD_TIME 2u

enum { RTIMER_OK, RTIMER_ERR_FULL, RTIMER_ERR_TIME, RTIMER_ERR_ALREADY_SCHEDULED };

struct rtimer;
typedef void (*rtimer_callback_t)(struct rtimer *t, void *ptr);

struct rtimer {
  rtimer_clock_t time;
  rtimer_callback_t func;
  void *ptr;
  /* The callback timer of the process that set it. For the driver only. */
  struct ctimer ctimer;
};

#define RTIMER_TIME(task) ((task)->time)

/* The clock in ticks of RTIMER_SECOND, by the program's CLOCK_SECOND. */
static inline rtimer_clock_t
rtimer_arch_now(void)
{
  uint64_t now = clock_time();
  return (rtimer_clock_t)(now / CLOCK_SECOND * RTIMER_SECOND + now % CLOCK_SECOND * RTIMER_SECOND / CLOCK_SECOND);
}
#define RTIMER_NOW() rtimer_arch_now()

/* Sets the timer by a callback timer, for this number of ticks of the clock from now on. */
int rtimer_set_after(struct rtimer *task, rtimer_clock_t time, clock_time_t left, rtimer_callback_t func, void *ptr);

/*
 * Calls func(task, ptr) at that time, or right after this activation if that time has passed. Returns RTIMER_OK. The duration is
 * ignored, as in Contiki-NG. It uses a callback timer of the process.
 */
static inline int
rtimer_set(struct rtimer *task, rtimer_clock_t time, rtimer_clock_t duration, rtimer_callback_t func, void *ptr)
{
  rtimer_clock_t now = RTIMER_NOW();
  uint64_t ahead = RTIMER_CLOCK_LT(now, time) ? (rtimer_clock_t)(time - now) : 0;
  (void)duration;
  return rtimer_set_after(task, time, (clock_time_t)((ahead * CLOCK_SECOND + RTIMER_SECOND - 1) / RTIMER_SECOND), func, ptr);
}

CC_REFUSED("real-time timers are ready from the start: leave this call out") void rtimer_init(void);
CC_REFUSED("the mote calls back itself: leave this call out") void rtimer_run_next(void);
CC_REFUSED("the clock stands still within an activation, so nothing can be waited for there: use an etimer")
void rtimer_busy_wait(bool until);
#define RTIMER_BUSYWAIT_UNTIL_ABS(cond, t0, max_time) (rtimer_busy_wait(cond), (void)(t0), (void)(max_time))
#define RTIMER_BUSYWAIT_UNTIL(cond, max_time) (rtimer_busy_wait(cond), (void)(max_time))
#define RTIMER_BUSYWAIT(duration) (rtimer_busy_wait(false), (void)(duration))

#endif
