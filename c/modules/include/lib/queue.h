/* Queues, first in, first out: queue.h of Contiki-NG, over list.h. */
#ifndef QUEUE_H_
#define QUEUE_H_

#include <stdbool.h>

#include "list.h"

TOARMUTS_BEGIN

#define QUEUE(name) LIST(name)

typedef list_t queue_t;

static inline void
queue_init(queue_t queue)
{
  list_init(queue);
}

static inline bool
queue_is_empty(queue_t queue)
{
  return list_head(queue) == NULL;
}

static inline void
queue_enqueue(queue_t queue, void *element)
{
  list_add(queue, element);
}

static inline void *
queue_dequeue(queue_t queue)
{
  return list_pop(queue);
}

static inline void *
queue_peek(queue_t queue)
{
  return list_head(queue);
}

TOARMUTS_END

#endif
