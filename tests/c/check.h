/* What the tests in C share: checks that are counted, and random numbers. */
#ifndef CHECK_H
#define CHECK_H

#include <stdbool.h>
#include <stdint.h>
#include <stdio.h>

/* How many random calls each test makes. */
#ifndef RANDOM_CALLS
#define RANDOM_CALLS 1000000
#endif

static unsigned long checks, faults;

/* Counts a check, and tells the name of one that doesn't hold. */
static inline void
check(const char *name, bool holds)
{
  checks++;
  if(!holds) {
    faults++;
    printf("does not hold: %s\n", name);
  }
}

/* Tells how many checks there were, and answers the status of the test. */
static inline int
conclude(void)
{
  printf("%lu of %lu checks hold\n", checks - faults, checks);
  return faults != 0;
}

/* Each thread has random numbers of its own. */
static _Thread_local uint32_t random_state = 1;

static inline uint32_t
next_random(void)
{
  random_state ^= random_state << 13;
  random_state ^= random_state >> 17;
  random_state ^= random_state << 5;
  return random_state;
}

static inline uint32_t
random_below(uint32_t below)
{
  return next_random() % below;
}

#endif
