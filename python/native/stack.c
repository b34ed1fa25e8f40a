/*
 * How much stack a thread has left, and the calls that are refused where that is too little.
 */
#define _GNU_SOURCE
#include "stack.h"

#include <pthread.h>

/* The calling thread's stack, from its lowest address up to its end. Both are 0 as long as they aren't known. */
struct stack {
  uintptr_t low;
  uintptr_t end;
};

static _Thread_local struct stack stack;

static void
look_up_stack(void)
{
  pthread_attr_t attributes;
  void *low;
  size_t size;

  if(pthread_getattr_np(pthread_self(), &attributes) != 0) {
    return;
  }
  if(pthread_attr_getstack(&attributes, &low, &size) == 0) {
    stack.low = (uintptr_t)low;
    stack.end = stack.low + size;
  }
  pthread_attr_destroy(&attributes);
}

static int
is_enough(uintptr_t here, size_t bytes)
{
  return here < stack.low || here >= stack.end || here - stack.low >= bytes;
}

/* The main thread's stack may have been given another limit since it was looked up, so what is too little is looked up again. */
int
has_stack(size_t bytes)
{
  const void *frame = __builtin_frame_address(0);
  uintptr_t here = (uintptr_t)frame;

  if(stack.end == 0 || !is_enough(here, bytes)) {
    look_up_stack();
  }
  return is_enough(here, bytes);
}

void
run_mote(const struct toarmuts_configuration *configuration, const uint8_t *applications, size_t applications_length, const uint8_t *script,
         size_t script_length, uint8_t *transcript, size_t room, struct toarmuts_outcome *outcome)
{
  static const struct toarmuts_outcome refused = {.status = STACK_TOO_SMALL};

  if(!has_stack(STACK_OF_A_RUN)) {
    *outcome = refused;
    return;
  }
  toarmuts_run(configuration, applications, applications_length, script, script_length, transcript, room, outcome);
}

uint32_t
open_mote(const struct toarmuts_configuration *configuration, uint32_t applications, struct toarmuts_mote *mote)
{
  return has_stack(STACK_OF_A_STEP) ? toarmuts_open(configuration, applications, mote) : STACK_TOO_SMALL;
}

uint32_t
feed_line(struct toarmuts_mote *mote, const uint8_t *line, size_t length)
{
  return has_stack(STACK_OF_A_STEP) ? toarmuts_feed(mote, line, length) : STACK_TOO_SMALL;
}

uint32_t
feed_input(struct toarmuts_mote *mote, uint32_t kind, uint32_t ticks, const uint8_t *bytes, size_t length)
{
  return has_stack(STACK_OF_A_STEP) ? toarmuts_feed_input(mote, kind, ticks, bytes, length) : STACK_TOO_SMALL;
}
