/*
 * The main loop of a board: the mote rests, an input comes, the mote works to its next rest. Inputs are the time, a line of the serial
 * line, a frame. Time is passed late, at a timer's end and before another input: so a board sleeps while its mote rests. The mote knows
 * nothing else of the world, so its inputs in their order are the run.
 */
#include "firmware.h"

#include "../record.h"

enum { LINE_ROOM = 256, RUN_GUARD = 12, MOST_WAITING = OUTPUT_ROOM / 2 };

extern const uint8_t board_stack_low_run[];

/* Opening the mote takes most of the stack, once. Afterwards most of that is malloc's, and the guard is wide. */
static void
open_all(void)
{
  struct record_head head = head_of(&board_settings.sizes, board_settings.node);
  stack_begin = __builtin_frame_address(0);
  board_open();
  open_console();
  if(board_settings.node != 0) {
    join_network(board_settings.node, 0);
  }
  limit_heap((const uint8_t *)((uintptr_t)stack_low - (1u << OPEN_GUARD)));
  number_processes();
  open_mote(&board_settings.sizes);
  limit_heap((const uint8_t *)((uintptr_t)board_stack_low_run - (1u << RUN_GUARD)));
  guard_stack(board_stack_low_run, RUN_GUARD);
  rings_open();
  if(board_settings.node != 0) {
    radio_open();
  }
  if(is_recording()) {
    record_head(&head);
  }
}

/* Works to the mote's rest, and notes what came of it. */
static void
rest(void)
{
  run_to_rest();
  record_check();
  note_losses();
}

/* Passes an input. The record has it before the mote. */
static void
pass_input(uint32_t kind, uint32_t ticks, const uint8_t *bytes, size_t length)
{
  record_input(kind, ticks, bytes, length);
  if(feed_input(kind, ticks, bytes, length) != 0) {
    stop("the mote accepts no more inputs");
  }
}

/* Passes the time up to now, in parts that end where a timer runs out: so one input never causes more than one timer's turns, also where
 * the board was held up. */
static void
pass_time(uint64_t now)
{
  static uint64_t passed;
  while(passed < now) {
    uint64_t due = next_due(), end = due > passed && due < now ? due : now;
    uint32_t ticks = end - passed > UINT32_MAX ? UINT32_MAX : (uint32_t)(end - passed);
    passed += ticks;
    pass_input(TOARMUTS_TICK, ticks, NULL, 0);
    rest();
  }
}

/* Whether a port lags after what was put. The record isn't any more, once it has ended. */
static bool
is_behind(enum port port)
{
  return output_used(port) > MOST_WAITING && !(port == RECORD && record_has_ended());
}

/* Whether all ports keep up, or aren't waited for: then their bytes are lost, or the record ends. */
static bool
outputs_keep_up(void)
{
  bool keep_up = true;
  for(enum port port = CONSOLE; port < PORTS; port++) {
    keep_up &= !output_is_awaited(port, is_behind(port));
  }
  return keep_up;
}

/* Takes a line or a frame, if one is whole, where no timer has run out by now. It isn't inlined: otherwise the mote's turns would have its
 * bytes on the stack, too. */
static __attribute__((noinline)) bool
take_input(uint64_t now)
{
  uint8_t bytes[LINE_ROOM];
  size_t length = input_take_line(bytes, sizeof bytes);
  uint32_t kind = length > 0 ? TOARMUTS_SERIAL : TOARMUTS_FRAME;
  if(length == 0) {
    length = take_frame_bytes(bytes);
  }
  if(length == 0) {
    return false;
  }
  pass_time(now);
  pass_input(kind, 0, bytes, length);
  return true;
}

static bool
has_work(void)
{
  return input_is_waiting();
}

static bool
never(void)
{
  return false;
}

static CC_NORETURN void
serve(void)
{
  for(;;) {
    uint64_t now = clock_ticks(), due = next_due();
    if(!outputs_keep_up()) {
      clock_sleep_until(now + 1, never);
    } else if(due <= now) {
      pass_time(now);
    } else if(take_input(now)) {
      rest();
    } else {
      note_losses();
      clock_sleep_until(due, has_work);
    }
  }
}

void
firmware(void)
{
  disable_interrupts();
  open_all();
  clock_ticks();
  restore_interrupts(0);
  if(board_settings.run_script != NULL) {
    run_to_rest();
    board_settings.run_script();
  }
  rest();
  serve();
}
