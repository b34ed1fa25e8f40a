/* Stacks, last in, first out: stack.h of Contiki-NG, over list.h. */
#ifndef STACK_H_
#define STACK_H_

#include <stdbool.h>

#include "list.h"

TOARMUTS_BEGIN

#define STACK(name) LIST(name)

static inline void
stack_init(list_t stack)
{
  list_init(stack);
}

static inline bool
stack_is_empty(list_t stack)
{
  return list_head(stack) == NULL;
}

static inline void
stack_push(list_t stack, void *element)
{
  list_push(stack, element);
}

static inline void *
stack_pop(list_t stack)
{
  return list_pop(stack);
}

static inline void *
stack_peek(list_t stack)
{
  return list_head(stack);
}

TOARMUTS_END

#endif
