/* Atomic operations: nothing interrupts an activation, so they are plain reads and writes. */
#ifndef ATOMIC_H_
#define ATOMIC_H_

#include <stdbool.h>
#include <stdint.h>

/* If the target has the old value, it gets the new one: true; otherwise it is unchanged: false. */
static inline bool
atomic_cas_uint8(volatile uint8_t *target, uint8_t old_val, uint8_t new_val)
{
  if(*target != old_val) {
    return false;
  }
  *target = new_val;
  return true;
}

#endif
