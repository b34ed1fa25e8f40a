/* Stands for POSIX threads on a board that has none: a thread runs when it is made, to its end. The type is the C library's. */
#ifndef PTHREAD_H
#define PTHREAD_H

#include <sys/types.h>

static inline int
pthread_create(pthread_t *thread, const void *attributes, void *(*run)(void *), void *argument)
{
  (void)attributes;
  *thread = (pthread_t)run(argument);
  return 0;
}

static inline int
pthread_join(pthread_t thread, void **result)
{
  *result = (void *)thread;
  return 0;
}

#endif
