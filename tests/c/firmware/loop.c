/*
 * The main loop of a board, compiled for this machine: no input and no timer is slept over, wherever in the loop it comes. Board and mote
 * are stand-ins, and each call of these is a point at which an interrupt may come: in a run at the first point, in the next run at the
 * second one, up to the last one, which is in the sleep.
 */
#include "firmware.h"

#include "../../../c/contiki/src/program/facts.h"
#include "../../../c/contiki/src/record.h"
#include "../check.h"

#include <setjmp.h>
#include <stdlib.h>

enum { HZ = 1000, TICKS = 128, MOST_POINTS = 1000000, MOST_LATE = 64, FEWEST_RUNS = 8 };
#define NEVER UINT64_MAX

const uint32_t board_hz = HZ;
const struct program_facts program_facts = {.ticks_a_second = TICKS};
const struct board_settings board_settings = {.sizes = {.mmem = 4096}, .node = 1};
const uint8_t *stack_low;
const void *stack_begin;
extern const uint8_t board_stack_low_run[];
const uint8_t board_stack_low_run[1];
uint8_t board_heap_start[sizeof(struct report)] __attribute__((aligned(8)));

/* A row of runs: what an interrupt brings, the counts that pass at each point, and the ticks to the mote's timer, or 0 if it has none. */
struct row {
  const char *bytes;
  bool is_whole; /* a line or a frame */
  enum port port;
  unsigned step;
  uint64_t timer;
};

#define LINE "a line\n", true, CONSOLE
#define FRAME "\300frame\300", true, RADIO
#define NOTHING "", false, CONSOLE
#define PART_OF_LINE "some text", false, CONSOLE
#define PART_OF_FRAME "some text", false, RADIO

static const struct row rows[] = {
  {LINE, 0, 0},  {LINE, 1, 0},  {LINE, 1, 1},    {LINE, 3, 2},         {LINE, 1, 100},        {LINE, 9, 100},        {FRAME, 0, 0},
  {FRAME, 1, 1}, {FRAME, 3, 2}, {NOTHING, 1, 1}, {PART_OF_LINE, 1, 2}, {PART_OF_LINE, 3, 40}, {PART_OF_FRAME, 1, 3}, {FRAME, 9, 40},
};
enum { ROWS = sizeof rows / sizeof *rows };

static jmp_buf end;
static const struct row *row = rows;
static unsigned first_point; /* that of the next run */
static unsigned points_left; /* until the interrupt comes */
static unsigned long points;

/* Counts of the board, and ticks of the mote. */
static uint64_t now = UINT32_MAX - 5000; /* so board_count soon begins anew */
static uint64_t begin = NEVER, came, wakes_at = NEVER, due = NEVER, passed;
static uint64_t asked; /* when the clock was read last */

static bool has_come = true, came_in_sleep, is_pending, wake_is_pending, is_fed = true, is_in_interrupt;

/* What must follow an input, in this order. */
static enum step { RECORDING, FEEDING, RUNNING, CHECKING } next = RUNNING;
static uint32_t interrupts_are_off;

/* The board. */

static void
handle_input(void)
{
  is_pending = false;
  is_in_interrupt = true;
  for(const char *byte = row->bytes; *byte != '\0'; byte++) {
    input_received(row->port, (uint8_t)*byte);
  }
  is_in_interrupt = false;
}

/* An interrupt is handled at once, or, while interrupts are off, later. */
static void
point(void)
{
  if(++points > MOST_POINTS) {
    abort();
  }
  now += row->step;
  if(!has_come && points_left-- == 0) {
    has_come = is_pending = true;
    came = now;
  }
  if(wakes_at <= now) {
    wakes_at = NEVER;
    wake_is_pending = true;
  }
  if(interrupts_are_off == 0) {
    wake_is_pending = false;
    if(is_pending) {
      handle_input();
    }
  }
}

uint32_t
disable_interrupts(void)
{
  uint32_t before;
  point();
  before = interrupts_are_off;
  interrupts_are_off = 1;
  point();
  return before;
}

void
restore_interrupts(uint32_t before)
{
  point();
  interrupts_are_off = before;
  point();
}

uint32_t
board_count(void)
{
  uint32_t count;
  point();
  begin = begin == NEVER ? now : begin;
  asked = now;
  count = (uint32_t)now;
  point();
  return count;
}

void
board_wake_after(uint32_t counts)
{
  point();
  check("interrupts are off where the wake-up is set", interrupts_are_off != 0);
  wakes_at = now + counts;
  point();
}

void
wait_for_interrupt(void)
{
  point();
  if(is_pending || wake_is_pending) {
    return;
  }
  check("no input is slept over", !input_is_waiting());
  check("a sleep has an end", wakes_at != NEVER && wakes_at - now < UINT32_MAX);
  if(!has_come && due == NEVER) {
    came_in_sleep = true;
    points_left = 0;
  }
  point();
  if(!is_pending && !wake_is_pending) {
    now = wakes_at == NEVER ? now + HZ : wakes_at;
    point();
  }
}

void
board_open(void)
{
}

void
board_pump(enum port port)
{
  (void)port;
}

/* The mote. */

static void
begin_run(void)
{
  uint8_t byte;
  for(enum port port = CONSOLE; port < RECORD; port++) {
    while(input_take_byte(port, &byte) > 0) {
    }
  }
  if(came_in_sleep) {
    check("interrupts came at each point before the sleep", first_point > FEWEST_RUNS);
    row++;
  }
  if(row == rows + ROWS) {
    longjmp(end, 1);
  }
  points_left = came_in_sleep ? 0 : first_point;
  first_point = points_left + 1;
  has_come = came_in_sleep = false;
  is_fed = !row->is_whole;
  due = row->timer == 0 ? NEVER : (now - begin) * TICKS / HZ + row->timer;
}

static void
must_be(enum step what, enum step then)
{
  check("an input is recorded, fed, run to its rest and checked, in the main loop", next == what && !is_in_interrupt);
  next = then;
}

uint64_t
next_due(void)
{
  check("an interrupt makes no call of the mote", !is_in_interrupt);
  point();
  if(has_come && !is_pending && is_fed && due == NEVER) {
    begin_run();
  }
  return due;
}

static bool
is_late(uint64_t count)
{
  return now - count > MOST_LATE * row->step;
}

static void
pass_ticks(uint64_t ticks)
{
  passed += ticks;
  if(passed >= due) {
    check("time is passed up to a timer's end", passed == due);
    check("a timer is not slept over", !is_late(begin + (due * HZ + TICKS - 1) / TICKS));
    due = NEVER;
  }
}

uint32_t
feed_input(uint32_t kind, uint32_t ticks, const uint8_t *bytes, size_t length)
{
  const char *text = row->port == CONSOLE ? "a line\n" : "frame";
  point();
  must_be(FEEDING, RUNNING);
  if(kind == TOARMUTS_TICK) {
    pass_ticks(ticks);
    return 0;
  }
  check("the time is passed before an input", passed == (asked - begin) * TICKS / HZ);
  check("the input is that which came", kind == (row->port == CONSOLE ? TOARMUTS_SERIAL : TOARMUTS_FRAME) && !is_fed);
  check("its bytes are those which came", length == strlen(text) && memcmp(bytes, text, length) == 0);
  check("an input is taken at once", !is_late(came));
  is_fed = true;
  return 0;
}

void
note_losses(void)
{
  point();
}

void
run_to_rest(void)
{
  must_be(RUNNING, CHECKING);
}

void
record_check(void)
{
  must_be(CHECKING, RECORDING);
}

void
record_input(uint32_t kind, uint32_t ticks, const uint8_t *bytes, size_t length)
{
  (void)kind;
  (void)ticks;
  (void)bytes;
  (void)length;
  must_be(RECORDING, FEEDING);
}

/* What the loop needs besides. */

void
give_up(int status, const char *format, ...)
{
  (void)status;
  (void)format;
  abort();
}

void
stop(const char *format, ...)
{
  (void)format;
  abort();
}

void *
take_bytes(size_t size)
{
  void *bytes = calloc(1, size);
  if(bytes == NULL) {
    abort();
  }
  return bytes;
}

struct record_head
head_of(const struct toarmuts_configuration *sizes, uint32_t node)
{
  return (struct record_head){.sizes = *sizes, .node = node};
}

bool
is_recording(void)
{
  return false;
}

bool
record_has_ended(void)
{
  return false;
}

#define DOES_NOTHING(name, ...) \
  void name(__VA_ARGS__)        \
  {                             \
  }

/* clang-format off */
DOES_NOTHING(open_console, void)
DOES_NOTHING(number_processes, void)
DOES_NOTHING(record_head, __attribute__((unused)) const struct record_head *head)
DOES_NOTHING(limit_heap, __attribute__((unused)) const uint8_t *limit)
DOES_NOTHING(join_network, __attribute__((unused)) uint16_t number, __attribute__((unused)) clock_time_t longest)
DOES_NOTHING(open_mote, __attribute__((unused)) const struct toarmuts_configuration *sizes)
DOES_NOTHING(guard_stack, __attribute__((unused)) const uint8_t *low, __attribute__((unused)) unsigned log2_of_size)
/* clang-format on */

int
main(void)
{
  if(setjmp(end) == 0) {
    firmware();
  }
  return conclude();
}
