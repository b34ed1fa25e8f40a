/*
 * A memory module beside the plain model of its test: the random numbers of the test are the bytes of the input. The file that includes
 * this one then includes the test, and says how a state is made anew and what one step is.
 */
#ifndef MODULE_H
#define MODULE_H

#include "bytes.h"

/* In place of tests/c/check.h. */
#define CHECK_H
#define RANDOM_CALLS 1000
#define NO_THREADS
#define main unused_main

static inline void
check(const char *name, bool holds)
{
  (void)name;
  WANT(holds);
}

static inline int
conclude(void)
{
  return 0;
}

static inline uint32_t
next_random(void)
{
  return take_byte();
}

#endif
