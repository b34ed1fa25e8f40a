/*
 * Time, from a counter of the board that runs free: nothing is lost where an interrupt is late. Another timer only wakes the board.
 */
#include "firmware.h"

#include "../program/facts.h"

enum { LONGEST_SLEEP = 1 << 30 };

/* All counts since the start. It is asked more often than the counter begins anew, since no sleep is longer. */
uint64_t
clock_count(void)
{
  static uint64_t counted;
  static uint32_t last;
  static bool has_begun;
  uint32_t now = board_count();
  counted += has_begun ? now - last : 0;
  has_begun = true;
  last = now;
  return counted;
}

static uint64_t
ticks_of(uint64_t count)
{
  uint64_t second = program_facts.ticks_a_second;
  return count / board_hz * second + count % board_hz * second / board_hz;
}

/* The first count at which the clock shows this tick. */
static uint64_t
count_of(uint64_t tick)
{
  uint64_t second = program_facts.ticks_a_second;
  return tick / second * board_hz + (tick % second * board_hz + second - 1) / second;
}

uint64_t
clock_ticks(void)
{
  return ticks_of(clock_count());
}

/* Sleeps up to a tick, or until an interrupt brings something. One that comes after the question stays pending, and ends the wait at once:
 * so nothing is slept over. */
void
clock_sleep_until(uint64_t tick, bool (*is_waiting)(void))
{
  uint64_t end = tick == UINT64_MAX ? UINT64_MAX : count_of(tick);
  uint32_t before = disable_interrupts();
  uint64_t now = clock_count();
  if(end > now && !is_waiting()) {
    board_wake_after(end - now > LONGEST_SLEEP ? LONGEST_SLEEP : (uint32_t)(end - now));
    wait_for_interrupt();
  }
  restore_interrupts(before);
}
