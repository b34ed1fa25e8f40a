/* An application in C, which prints a word every ten ticks, on a mote that runs step by step. */
#include "toarmuts.h"

#include <stdio.h>

static const struct toarmuts_call timer_set = {.kind = TOARMUTS_CALL_TIMER_SET, .numbers = {0, 10}};
static const struct toarmuts_call timer_reset = {.kind = TOARMUTS_CALL_TIMER_RESET, .numbers = {0}};
static const struct toarmuts_call print = {.kind = TOARMUTS_CALL_PRINT, .length = 5, .bytes = "beat\n"};
static const struct toarmuts_call wait_for_event = {.kind = TOARMUTS_CALL_WAIT};

/* The application's call for what it receives. */
static const struct toarmuts_call *
beat(const struct toarmuts_turn *turn)
{
  static bool has_printed;
  bool is_event = turn->stimulus == TOARMUTS_EVENT, resets = !is_event && has_printed;
  has_printed = is_event && turn->event == TOARMUTS_EVENT_TIMER;
  if(is_event && turn->event == TOARMUTS_EVENT_INIT) {
    return &timer_set;
  }
  return has_printed ? &print : resets ? &timer_reset : &wait_for_event;
}

int
main(void)
{
  struct toarmuts_configuration sizes = TOARMUTS_DEFAULTS;
  struct toarmuts_mote mote = {0};
  struct toarmuts_turn turn;
  uint8_t line[640];
  uint64_t length = 0;
  uint32_t step;
  int ticks = 2;
  toarmuts_open(&sizes, 1, &mote);
  while(toarmuts_next(&mote, &step, &turn) == TOARMUTS_DONE && step != TOARMUTS_STEP_HALTED) {
    if(step == TOARMUTS_REST && ticks-- == 0) {
      break;
    } else if(step == TOARMUTS_REST) {
      toarmuts_feed(&mote, (const uint8_t *)"tick 10", 7);
    } else {
      if(step == TOARMUTS_TURN) {
        toarmuts_submit(&mote, beat(&turn));
      }
      toarmuts_line(&mote, line, sizeof line, &length);
      printf("%.*s\n", (int)length, (const char *)line);
    }
  }
  return (int)toarmuts_close(&mote);
}
