/*
 * A ring of bytes between an interrupt and the main loop: one of them writes, the other one reads. Each changes only its own count, so
 * neither waits for the other. A byte is stored before the count that shows it, and read before the count that gives its room back.
 */
#ifndef RING_H_
#define RING_H_

#include <stdatomic.h>
#include <stdbool.h>
#include <stdint.h>

struct ring {
  uint8_t *bytes;
  uint32_t room;               /* 0, or a power of 2: so the counts may begin anew after 2^32 - 1 */
  _Atomic uint32_t put, taken; /* the numbers of bytes */
};

/* How many bytes wait. */
static inline uint32_t
ring_used(const struct ring *ring)
{
  uint32_t put = atomic_load_explicit(&ring->put, memory_order_acquire);
  return put - atomic_load_explicit(&ring->taken, memory_order_acquire);
}

/* The writer: puts a byte, if there is room for it. */
static inline bool
ring_put(struct ring *ring, uint8_t byte)
{
  uint32_t put = atomic_load_explicit(&ring->put, memory_order_relaxed);
  if(ring_used(ring) == ring->room) {
    return false;
  }
  ring->bytes[put % ring->room] = byte;
  atomic_store_explicit(&ring->put, put + 1, memory_order_release);
  return true;
}

/* The reader: takes the next byte, or returns -1. */
static inline int
ring_take(struct ring *ring)
{
  uint32_t taken = atomic_load_explicit(&ring->taken, memory_order_relaxed);
  uint8_t byte;
  if(ring_used(ring) == 0) {
    return -1;
  }
  byte = ring->bytes[taken % ring->room];
  atomic_store_explicit(&ring->taken, taken + 1, memory_order_release);
  return byte;
}

/* A count that only one of both changes, and the other one reads. */
static inline void
count_up(_Atomic uint32_t *count)
{
  atomic_store_explicit(count, atomic_load_explicit(count, memory_order_relaxed) + 1, memory_order_release);
}

static inline uint32_t
count_read(const _Atomic uint32_t *count)
{
  return atomic_load_explicit(count, memory_order_acquire);
}

#endif
