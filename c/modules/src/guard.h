/*
 * Reports the free bytes of the modules' memory to the address sanitizer, so that it finds their use. Whether there is one is decided
 * when the program is linked, so the installed library serves programs with and without it.
 */
#ifndef GUARD_H_
#define GUARD_H_

#include "toarmuts/common.h"

extern void __asan_poison_memory_region(void const volatile *place, size_t size) __attribute__((weak));
extern void __asan_unpoison_memory_region(void const volatile *place, size_t size) __attribute__((weak));
extern void *__asan_region_is_poisoned(void *place, size_t size) __attribute__((weak));

/* Whether the program has the address sanitizer. There is none for Cortex-M, so nothing of all this is compiled there. */
static inline bool
is_guarded(void)
{
  return !TOARMUTS_CORTEX_M && __asan_poison_memory_region != NULL && __asan_unpoison_memory_region != NULL &&
         __asan_region_is_poisoned != NULL;
}

/* These bytes are nobody's from now on. */
static inline void
guard_bytes(const void *place, size_t size)
{
  if(is_guarded()) {
    __asan_poison_memory_region(place, size);
  }
}

/* These bytes may be used from now on. */
static inline void
open_bytes(const void *place, size_t size)
{
  if(is_guarded()) {
    __asan_unpoison_memory_region(place, size);
  }
}

/* How many of these bytes, from the first on, may be used. */
static inline size_t
count_open_bytes(void *place, size_t size)
{
  const char *guarded = is_guarded() ? __asan_region_is_poisoned(place, size) : NULL;
  return guarded != NULL ? (size_t)(guarded - (const char *)place) : size;
}

#endif
