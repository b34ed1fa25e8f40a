/*
 * Steps of a mote or a network in one call.
 */
#include "advance.h"

#include <string.h>

#include "network_script.h"
#include "stack.h"

/* A mote, or a network; the other one is NULL. */
struct held {
  struct toarmuts_mote *mote;
  struct toarmuts_network *network;
};

/* Writes the line of what happened last, with a line end, after those that are there. */
static uint32_t
put_line(const struct held *held, struct advance *advance)
{
  uint8_t *end = advance->lines + advance->length;
  uint64_t room = sizeof advance->lines - advance->length - 1, length = 0;
  uint32_t status = held->mote != NULL ? toarmuts_line(held->mote, end, room, &length)
                                       : toarmuts_network_line(held->network, end, room, &length);

  if(status == 0) {
    advance->length += (uint32_t)length;
    advance->lines[advance->length++] = '\n';
  }
  return status;
}

/* Whether there is stack for a step. */
static bool
begin_step(struct advance *advance)
{
  advance->length = 0;
  advance->submitted = 0;
  advance->executed = 0;
  advance->status = has_stack(STACK_OF_A_STEP) ? TOARMUTS_DONE : STACK_TOO_SMALL;
  return advance->status == TOARMUTS_DONE;
}

/* Writes the line of a turn whose call was submitted with this status. */
static bool
end_turn(const struct held *held, uint32_t status, struct advance *advance)
{
  advance->submitted = status == TOARMUTS_DONE;
  advance->status = advance->submitted ? put_line(held, advance) : status;
  return advance->status == TOARMUTS_DONE;
}

/* The step of a mote that a network's step is. */
static uint32_t
step_of(uint32_t network_step)
{
  switch(network_step) {
  case TOARMUTS_NETWORK_TURN:
    return TOARMUTS_TURN;
  case TOARMUTS_NETWORK_REST:
    return TOARMUTS_REST;
  case TOARMUTS_NETWORK_EXHAUSTED:
    return TOARMUTS_STEP_HALTED;
  default:
    return TOARMUTS_ENTRY;
  }
}

/* Works on to what happens next; returns whether that has a line. */
static bool
find_next(const struct held *held, struct advance *advance)
{
  struct toarmuts_happening happening;

  if(held->mote != NULL) {
    advance->status = toarmuts_next(held->mote, &advance->step, &advance->turn);
    return advance->status == TOARMUTS_DONE && advance->step == TOARMUTS_ENTRY;
  }
  advance->status = toarmuts_network_next(held->network, &happening, &advance->turn);
  if(advance->status != TOARMUTS_DONE) {
    return false;
  }
  advance->step = step_of(happening.step);
  if(advance->step == TOARMUTS_TURN) {
    advance->mote = happening.mote;
  }
  return advance->step == TOARMUTS_ENTRY || advance->step == TOARMUTS_STEP_HALTED;
}

/* Whether there is room for one more line. */
static bool
has_room(const struct advance *advance)
{
  return sizeof advance->lines - advance->length > MOST_OF_A_LINE;
}

/* Works on to the next turn, to rest or to the halt, or until the lines fill the room. */
static void
go_on(const struct held *held, struct advance *advance)
{
  do {
    if(find_next(held, advance)) {
      advance->status = put_line(held, advance);
    }
  } while(advance->status == TOARMUTS_DONE && advance->step == TOARMUTS_ENTRY && has_room(advance));
}

void
advance_mote(struct toarmuts_mote *mote, const struct toarmuts_call *call, struct advance *advance)
{
  struct held held = {mote, NULL};

  if(begin_step(advance) && (call->kind == 0 || end_turn(&held, toarmuts_submit(mote, call), advance))) {
    go_on(&held, advance);
  }
}

void
advance_mote_bundled(struct toarmuts_mote *mote, struct toarmuts_application *application, struct advance *advance)
{
  struct held held = {mote, NULL};

  if(begin_step(advance) && end_turn(&held, toarmuts_submit_bundled(mote, application), advance)) {
    go_on(&held, advance);
  }
}

void
advance_network(struct toarmuts_network *network, const struct toarmuts_call *call, struct advance *advance)
{
  struct held held = {NULL, network};

  if(begin_step(advance) && (call->kind == 0 || end_turn(&held, toarmuts_network_submit(network, call), advance))) {
    go_on(&held, advance);
  }
}

void
advance_network_bundled(struct toarmuts_network *network, struct toarmuts_application *application, struct advance *advance)
{
  struct held held = {NULL, network};

  if(begin_step(advance) && end_turn(&held, toarmuts_network_submit_bundled(network, application), advance)) {
    go_on(&held, advance);
  }
}

/* Passes what a line says to the network, and returns the status. */
static uint32_t
feed(struct toarmuts_network *network, enum network_line line, const struct network_input *input)
{
  switch(line) {
  case NETWORK_LINE_NOTHING:
    return TOARMUTS_DONE;
  case NETWORK_LINE_TICK:
    return toarmuts_network_tick(network, input->ticks);
  case NETWORK_LINE_BYTES:
    return toarmuts_network_feed(network, input->mote, input->kind, input->bytes, input->length);
  default:
    return TOARMUTS_BAD_LINE;
  }
}

/* Executes a line of a script, and works on. Returns whether it was an input. */
static bool
execute_line(const struct held *held, const uint8_t *line, size_t length, struct advance *advance)
{
  struct network_input input;
  enum network_line says = read_network_line(line, length, &input);

  advance->status = feed(held->network, says, &input);
  if(advance->status == TOARMUTS_NO_MOTE) {
    advance->status = TOARMUTS_BAD_LINE;
  }
  if(advance->status != TOARMUTS_DONE) {
    return false;
  }
  advance->executed += length + 1;
  if(says == NETWORK_LINE_NOTHING) {
    return false;
  }
  go_on(held, advance);
  return true;
}

void
advance_network_script(struct toarmuts_network *network, const uint8_t *script, uint64_t first, uint64_t length, struct advance *advance)
{
  struct held held = {NULL, network};
  const uint8_t *line = script + first, *last = script + length;
  unsigned inputs = 0;

  if(!begin_step(advance)) {
    return;
  }
  advance->step = TOARMUTS_REST;
  while(advance->status == TOARMUTS_DONE && advance->step == TOARMUTS_REST && line < last && inputs < MOST_INPUTS && has_room(advance)) {
    const uint8_t *end = memchr(line, '\n', (size_t)(last - line));

    inputs += execute_line(&held, line, (size_t)(end - line), advance);
    line = end + 1;
  }
}

/* Adds links; where one is refused, the network is closed. */
static uint32_t
add_links(struct toarmuts_network *network, const struct toarmuts_link *links, uint64_t count)
{
  for(uint64_t i = 0; i < count; i++) {
    uint32_t status = toarmuts_network_link(network, &links[i]);

    if(status != 0) {
      toarmuts_network_close(network);
      return status;
    }
  }
  return 0;
}

uint32_t
open_network(const struct toarmuts_network_sizes *sizes, const struct toarmuts_network_mote *motes, uint64_t count,
             const struct toarmuts_link *links, uint64_t links_count, struct toarmuts_network *network)
{
  uint32_t status = has_stack(STACK_OF_A_STEP) ? toarmuts_network_open(sizes, motes, count, network) : STACK_TOO_SMALL;

  return status == 0 ? add_links(network, links, links_count) : status;
}
