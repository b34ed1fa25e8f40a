/* mt.h, by the contexts of the C library. */
#define _GNU_SOURCE
#include "sys/mt.h"

#include "../sanitizer.h"

#include <stdbool.h>
#include <stddef.h>
#include <stdlib.h>
#include <ucontext.h>

enum { STACK_SIZE = 1 << 18 };

struct mt_context {
  ucontext_t own, caller;
  void (*function)(void *);
  void *data;
  /* What the sanitizer keeps of both stacks, and the caller's. */
  void *own_kept, *caller_kept;
  const void *caller_stack;
  size_t caller_size;
  char stack[STACK_SIZE];
};

/* The thread that runs, or NULL. */
static struct mt_thread *current;

void
mt_init(void)
{
}

void
mt_remove(void)
{
}

/* Goes on with another context. The present one continues here once it is gone on with. This isn't swapcontext, of which the address
 * sanitizer warns that it can't follow it. */
static void
go_on_with(ucontext_t *present, const ucontext_t *next)
{
  volatile bool is_back = false;
  getcontext(present);
  if(!is_back) {
    is_back = true;
    setcontext(next);
  }
}

/* Goes back to who called mt_exec. A thread that has exited doesn't come back. */
static void
leave(struct mt_thread *thread, int state)
{
  struct mt_context *context = thread->context;
  thread->state = state;
  __sanitizer_start_switch_fiber(state == MT_STATE_EXITED ? NULL : &context->own_kept, context->caller_stack, context->caller_size);
  go_on_with(&context->own, &context->caller);
  __sanitizer_finish_switch_fiber(context->own_kept, &context->caller_stack, &context->caller_size);
}

static void
begin(void)
{
  struct mt_thread *thread = current;
  __sanitizer_finish_switch_fiber(NULL, &thread->context->caller_stack, &thread->context->caller_size);
  thread->context->function(thread->context->data);
  leave(thread, MT_STATE_EXITED);
}

void
mt_start(struct mt_thread *thread, void (*function)(void *), void *data)
{
  struct mt_context *context = calloc(1, sizeof *context);
  if(context == NULL) {
    abort();
  }
  context->function = function;
  context->data = data;
  getcontext(&context->own);
  context->own.uc_stack.ss_sp = context->stack;
  context->own.uc_stack.ss_size = sizeof context->stack;
  makecontext(&context->own, begin, 0);
  thread->context = context;
  thread->state = MT_STATE_READY;
}

void
mt_exec(struct mt_thread *thread)
{
  struct mt_thread *outer = current;
  struct mt_context *context = thread->context;
  if(thread->state != MT_STATE_READY) {
    return;
  }
  thread->state = MT_STATE_RUNNING;
  current = thread;
  __sanitizer_start_switch_fiber(&context->caller_kept, context->stack, sizeof context->stack);
  go_on_with(&context->caller, &context->own);
  __sanitizer_finish_switch_fiber(context->caller_kept, NULL, NULL);
  current = outer;
}

void
mt_yield(void)
{
  if(current != NULL) {
    leave(current, MT_STATE_READY);
  }
}

void
mt_exit(void)
{
  if(current != NULL) {
    leave(current, MT_STATE_EXITED);
  }
}

void
mt_stop(struct mt_thread *thread)
{
  if(thread != current) {
    free(thread->context);
    thread->context = NULL;
    thread->state = MT_STATE_EXITED;
  }
}
