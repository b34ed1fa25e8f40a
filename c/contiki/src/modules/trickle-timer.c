/* trickle-timer.h: the rules are those of RFC 6206, section 4.2. */
#include "lib/trickle-timer.h"

#include "lib/random.h"

static void begin_interval(struct trickle_timer *tt);

/* A random number below a bound, which may be greater than those of random_rand. */
static clock_time_t
random_below(clock_time_t bound)
{
  clock_time_t number = ((clock_time_t)random_rand() << 16) | random_rand();
  return number % bound;
}

/* The interval is over: the next one has twice its length, up to the greatest. */
static void
end_interval(void *ptr)
{
  struct trickle_timer *tt = ptr;
  tt->i_cur = tt->i_cur > tt->i_max_abs / 2 ? tt->i_max_abs : 2 * tt->i_cur;
  begin_interval(tt);
}

/* The random time in the interval has come. The callback may stop the timer, or begin another interval. */
static void
tell_protocol(void *ptr)
{
  struct trickle_timer *tt = ptr;
  clock_time_t start = tt->i_start, length = tt->i_cur, end = TRICKLE_TIMER_INTERVAL_END(tt), now = clock_time();
  tt->cb(tt->cb_arg, TRICKLE_TIMER_PROTO_TX_ALLOW(tt) ? TRICKLE_TIMER_TX_OK : TRICKLE_TIMER_TX_SUPPRESS);
  if(trickle_timer_is_running(tt) && tt->i_start == start && tt->i_cur == length) {
    ctimer_set(&tt->ct, end > now ? end - now : 0, end_interval, tt);
  }
}

static void
begin_interval(struct trickle_timer *tt)
{
  clock_time_t half = tt->i_cur / 2;
  tt->c = 0;
  tt->i_start = clock_time();
  ctimer_set(&tt->ct, half + random_below(tt->i_cur - half), tell_protocol, tt);
}

uint8_t
trickle_timer_config(struct trickle_timer *tt, clock_time_t i_min, uint8_t i_max, uint8_t k)
{
  if(tt == NULL || !TRICKLE_TIMER_IPAIR_IS_VALID(i_min, i_max)) {
    return TRICKLE_TIMER_ERROR;
  }
  tt->i_min = i_min;
  tt->i_max = i_max;
  tt->i_max_abs = i_min << i_max;
  tt->k = k;
  return TRICKLE_TIMER_SUCCESS;
}

uint8_t
trickle_timer_set(struct trickle_timer *tt, trickle_timer_cb_t proto_cb, void *ptr)
{
  if(tt == NULL || proto_cb == NULL || tt->i_min < 2) {
    return TRICKLE_TIMER_ERROR;
  }
  tt->cb = proto_cb;
  tt->cb_arg = ptr;
  tt->i_cur = tt->i_min + random_below(tt->i_max_abs - tt->i_min + 1);
  begin_interval(tt);
  return TRICKLE_TIMER_SUCCESS;
}

void
trickle_timer_stop(struct trickle_timer *tt)
{
  ctimer_stop(&tt->ct);
  tt->i_cur = TRICKLE_TIMER_IS_STOPPED;
}

void
trickle_timer_consistency(struct trickle_timer *tt)
{
  if(tt->c < UINT8_MAX) {
    tt->c++;
  }
}

void
trickle_timer_inconsistency(struct trickle_timer *tt)
{
  if(tt->i_cur != tt->i_min) {
    tt->i_cur = tt->i_min;
    begin_interval(tt);
  }
}
