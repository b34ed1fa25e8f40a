/*
 * Trickle timers (RFC 6206): each uses a callback timer of the process. In each interval the protocol's callback is called
 * once, at a random time in the second half, with whether to send. Then the interval doubles, up to the greatest one.
 */
#ifndef TRICKLE_TIMER_H_
#define TRICKLE_TIMER_H_

#include <stdint.h>

#include "sys/clock.h"
#include "sys/ctimer.h"

/* As k: nothing is ever suppressed. */
#define TRICKLE_TIMER_INFINITE_REDUNDANCY 0x00

#define TRICKLE_TIMER_ERROR 0
#define TRICKLE_TIMER_SUCCESS 1

/* As the present interval: the timer doesn't run. */
#define TRICKLE_TIMER_IS_STOPPED 0

/* The argument of the callback. */
#define TRICKLE_TIMER_TX_SUPPRESS 0
#define TRICKLE_TIMER_TX_OK 1

typedef void (*trickle_timer_cb_t)(void *ptr, uint8_t suppress);

struct trickle_timer {
  clock_time_t i_min;     /* the least interval, in ticks */
  clock_time_t i_cur;     /* the present one, or TRICKLE_TIMER_IS_STOPPED */
  clock_time_t i_start;   /* when that began */
  clock_time_t i_max_abs; /* the greatest interval, in ticks */
  struct ctimer ct;
  trickle_timer_cb_t cb;
  void *cb_arg;
  uint8_t i_max; /* the number of times that the least interval doubles */
  uint8_t k;     /* the number of consistent messages that suppress one's own */
  uint8_t c;     /* the number heard in this interval */
};

#define TRICKLE_TIMER_INTERVAL_MAX(tt) ((tt)->i_max_abs)
#define TRICKLE_TIMER_INTERVAL_END(tt) ((tt)->i_start + (tt)->i_cur)

/* Whether the mote has such timers: the least interval has at least 2 ticks, and the greatest is below 2^31 ticks. */
#define TRICKLE_TIMER_IPAIR_IS_VALID(i_min, i_max) \
  ((i_min) >= 2 && (i_max) >= 1 && (i_max) <= 30 && (clock_time_t)(i_min) <= (clock_time_t)(INT32_MAX >> (i_max)))

/* Whether the redundancy is unbounded, and whether the callback would now be called to send, or not to send. */
#define TRICKLE_TIMER_PROTO_INFINITE(tt) ((tt)->k == TRICKLE_TIMER_INFINITE_REDUNDANCY)
#define TRICKLE_TIMER_PROTO_TX_ALLOW(tt) (TRICKLE_TIMER_PROTO_INFINITE(tt) || (tt)->c < (tt)->k)
#define TRICKLE_TIMER_PROTO_TX_SUPPRESS(tt) (!TRICKLE_TIMER_PROTO_TX_ALLOW(tt))

/* Sets the least interval in ticks, the number of its doublings, and the redundancy. TRICKLE_TIMER_ERROR if one is invalid. */
uint8_t trickle_timer_config(struct trickle_timer *tt, clock_time_t i_min, uint8_t i_max, uint8_t k);

/* Starts a timer that was configured, with a random interval between the least and the greatest one. TRICKLE_TIMER_ERROR if there
 * is no callback. */
uint8_t trickle_timer_set(struct trickle_timer *tt, trickle_timer_cb_t proto_cb, void *ptr);

/* Stops it. The callback may call this, too. */
void trickle_timer_stop(struct trickle_timer *tt);

/* A consistent message was heard. */
void trickle_timer_consistency(struct trickle_timer *tt);

/* An inconsistent one was heard, or another event needs it: an interval of the least length begins, unless it has that length. */
void trickle_timer_inconsistency(struct trickle_timer *tt);
#define trickle_timer_reset_event(tt) trickle_timer_inconsistency(tt)

#define trickle_timer_is_running(tt) ((tt)->i_cur != TRICKLE_TIMER_IS_STOPPED)

#endif
