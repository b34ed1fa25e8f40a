/* Mutexes. A lock never waits. Nothing interrupts an activation, so they are plain reads and writes. */
#ifndef MUTEX_H_
#define MUTEX_H_

#include <stdbool.h>
#include <stdint.h>

#define MUTEX_STATUS_LOCKED 1
#define MUTEX_STATUS_UNLOCKED 0

/* A mutex with the status unlocked is free; so is one whose bytes are 0. */
typedef uint_fast8_t mutex_t;

/* Takes the lock: true; false if it is taken already. */
static inline bool
mutex_try_lock(volatile mutex_t *mutex)
{
  if(*mutex == MUTEX_STATUS_LOCKED) {
    return false;
  }
  *mutex = MUTEX_STATUS_LOCKED;
  return true;
}

static inline void
mutex_unlock(volatile mutex_t *mutex)
{
  *mutex = MUTEX_STATUS_UNLOCKED;
}

#endif
