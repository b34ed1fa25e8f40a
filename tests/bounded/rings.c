/*
 * Rings with two threads, one of which puts while the other gets, for the thread sanitizer: it finds an index or an item that is
 * read without an order to its write, whatever the processor does. Items are passed in the order of their numbers.
 */
#include "lib/ringbuf.h"
#include "lib/ringbufindex.h"

#include "../c/check.h"

#include <pthread.h>
#include <sched.h>
#include <stdlib.h>

enum { SENT = 2000, SIZE = 32 };

static struct ringbufindex indices;
static uint32_t items[SIZE];
static struct ringbuf ring;

/* Puts the numbers from 1 on, at the index that the ring of indices gives, and their low bytes into the other ring. */
static void *
put_all(void *unused)
{
  for(uint32_t i = 1; i <= SENT;) {
    int at = ringbufindex_peek_put(&indices);
    if(at >= 0) {
      items[at] = i;
      ringbufindex_put(&indices);
      i++;
    } else {
      sched_yield();
    }
  }
  for(uint32_t i = 1; i <= SENT;) {
    int is_put = ringbuf_put(&ring, (uint8_t)i);
    i += (uint32_t)is_put;
    if(!is_put) {
      sched_yield();
    }
  }
  return unused;
}

/* An item is read before its slot is given back. */
static bool
gets_all_items(void)
{
  bool are_right = true;
  for(uint32_t i = 1; i <= SENT;) {
    int at = ringbufindex_peek_get(&indices);
    if(at >= 0) {
      are_right = are_right && items[at] == i++;
      ringbufindex_get(&indices);
    } else {
      sched_yield();
    }
  }
  return are_right;
}

static bool
gets_all_bytes(void)
{
  bool are_right = true;
  for(uint32_t i = 1; i <= SENT;) {
    int byte = ringbuf_get(&ring);
    if(byte >= 0) {
      are_right = are_right && byte == (uint8_t)i++;
    } else {
      sched_yield();
    }
  }
  return are_right;
}

int
main(void)
{
  static uint8_t data[SIZE];
  pthread_t thread;
  ringbufindex_init(&indices, SIZE);
  ringbuf_init(&ring, data, SIZE);
  if(pthread_create(&thread, NULL, put_all, NULL) != 0) {
    abort();
  }
  check("items in their order", gets_all_items());
  check("bytes in their order", gets_all_bytes());
  pthread_join(thread, NULL);
  check("nothing is left", ringbufindex_empty(&indices) && ringbuf_elements(&ring) == 0);
  return conclude();
}
