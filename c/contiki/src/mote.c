/* The mote of a program of one mote, asked step by step. */
#define _XOPEN_SOURCE 700
#include "driver.h"

#include <signal.h>

const struct process *last_process;
static struct toarmuts_mote mote;

/* Whether a call of the library runs, or its result is being shown. */
static volatile sig_atomic_t is_at_work;

/* Boots the mote with the program's processes as its applications. */
void
open_mote(const struct toarmuts_configuration *configuration)
{
  switch(toarmuts_open(configuration, process_count, &mote)) {
  case 0:
    return;
  case TOARMUTS_OUT_OF_MEMORY:
    give_up(STATUS_NO_MEMORY, "out of memory");
  default:
    give_up(STATUS_BAD_WORDS, "bad sizes");
  }
}

/* Frees its memory, in any state. */
void
close_mote(void)
{
  toarmuts_close(&mote);
}

/* `toarmuts_next`. A handler of signals sees that the mote works meanwhile. */
static uint32_t
next_step(uint32_t *step, struct toarmuts_turn *turn)
{
  uint32_t status;
  is_at_work = 1;
  status = toarmuts_next(&mote, step, turn);
  is_at_work = 0;
  return status;
}

/* Works on to the next turn; other entries are shown. False at rest. A mote that halts ends the program. */
bool
next_turn(struct toarmuts_turn *turn)
{
  uint32_t step;
  while(next_step(&step, turn) == 0) {
    switch(step) {
    case TOARMUTS_TURN:
      return true;
    case TOARMUTS_ENTRY:
      show_entry();
      break;
    case TOARMUTS_REST:
      return false;
    default:
      halt();
    }
  }
  stop("the mote gives no turn");
}

/* `toarmuts_submit`: the call of the process whose turn it is. The turn is shown. */
uint32_t
answer_turn(const struct toarmuts_call *call)
{
  uint32_t status;
  is_at_work = 1;
  status = toarmuts_submit(&mote, call);
  if(status == 0) {
    last_process = activation->process;
    sum_call(call);
    show_turn(call);
  }
  is_at_work = 0;
  return status;
}

/* Makes a call whose reply nobody awaits, since the run ends here: also in a handler of signals, unless the mote works. */
void
make_last_call(const struct toarmuts_call *call)
{
  if(activation != NULL && !is_at_work) {
    answer_turn(call);
  }
}

/* Executes all turns up to the mote's rest. */
void
run_to_rest(void)
{
  struct toarmuts_turn turn;
  while(next_turn(&turn)) {
    run_activation(&turn);
  }
}

/* Submits a line of the script. */
uint32_t
feed_line(const char *line, size_t length)
{
  return toarmuts_feed(&mote, (const uint8_t *)line, length);
}

/* For a board: passes an input that is no text. */
uint32_t
feed_input(uint32_t kind, uint32_t ticks, const uint8_t *bytes, size_t length)
{
  static const uint8_t none[1];
  return toarmuts_feed_input(&mote, kind, ticks, bytes == NULL ? none : bytes, length);
}

/* The clock at which the next timer runs out, or UINT64_MAX. */
uint64_t
next_due(void)
{
  uint64_t clock;
  return toarmuts_due(&mote, &clock) == 0 ? clock : UINT64_MAX;
}

/* The clock, without a call of the program: for the driver. */
clock_time_t
clock_now(void)
{
  uint64_t clock = 0;
  toarmuts_clock(&mote, &clock);
  return clock;
}

uint32_t
last_line(uint8_t *line, size_t room, uint64_t *length)
{
  return toarmuts_line(&mote, line, room, length);
}

/* For a board: the bytes of the frame, where the last entry is one that was sent. Returns their number, or 0. */
size_t
last_sent(uint8_t *bytes, size_t room)
{
  uint64_t length;
  return toarmuts_sent(&mote, bytes, room, &length) == 0 ? (size_t)length : 0;
}

unsigned
present_mote(void)
{
  return 0;
}
