/*
 * Rings: worked calls, wrong arguments, a million random calls beside a plain queue for rings of each size, and two threads, of
 * which one puts and one gets.
 */
#include "lib/ringbuf.h"

#include "check.h"

#ifndef NO_THREADS
#include <pthread.h>
#endif
#include <stdlib.h>
#include <string.h>

static void
check_worked_calls(void)
{
  struct ringbuf ring;
  uint8_t data[4];
  ringbuf_init(&ring, data, 4);
  check("empty", ringbuf_size(&ring) == 4 && ringbuf_elements(&ring) == 0 && ringbuf_get(&ring) == -1);
  check("three fit", ringbuf_put(&ring, 1) == 1 && ringbuf_put(&ring, 255) == 1 && ringbuf_put(&ring, 3) == 1);
  check("and no more", ringbuf_put(&ring, 4) == 0 && ringbuf_elements(&ring) == 3);
  check("the oldest first", ringbuf_get(&ring) == 1 && ringbuf_get(&ring) == 255);
  check("around the end", ringbuf_put(&ring, 5) == 1 && ringbuf_put(&ring, 6) == 1 && ringbuf_put(&ring, 7) == 0);
  check("in their order", ringbuf_get(&ring) == 3 && ringbuf_get(&ring) == 5 && ringbuf_get(&ring) == 6 && ringbuf_get(&ring) == -1);
}

static void
check_wrong_arguments(void)
{
  struct ringbuf ring;
  uint8_t data[1] = {9};
  ringbuf_init(&ring, NULL, 8);
  check("nowhere", ringbuf_put(&ring, 1) == 0 && ringbuf_get(&ring) == -1 && ringbuf_elements(&ring) == 0);
  ring.put_ptr = 3;
  check("nowhere, and a spoilt place", ringbuf_put(&ring, 1) == 0 && ringbuf_get(&ring) == -1 && ringbuf_elements(&ring) == 0);
  ringbuf_init(&ring, data, 0);
  check("no bytes", ringbuf_put(&ring, 1) == 0 && ringbuf_get(&ring) == -1 && data[0] == 9);
  ringbuf_init(&ring, data, 1);
  check("one byte", ringbuf_put(&ring, 1) == 0 && ringbuf_get(&ring) == -1 && data[0] == 9);
  ring.put_ptr = 200;
  check("a spoilt place", ringbuf_put(&ring, 1) == 0 && ringbuf_get(&ring) == -1 && ringbuf_elements(&ring) == 0);
}

/* A queue that is an array: what waits stands at its front. */
static uint8_t queue[256];
static size_t waiting;

static bool
is_as_in_model(struct ringbuf *ring, size_t size)
{
  uint8_t byte = (uint8_t)next_random();
  bool holds;
  if(next_random() % 2 == 0) {
    bool full = waiting == size - 1;
    holds = ringbuf_put(ring, byte) == !full;
    if(!full) {
      queue[waiting++] = byte;
    }
  } else {
    holds = ringbuf_get(ring) == (waiting == 0 ? -1 : queue[0]);
    if(waiting > 0) {
      memmove(queue, queue + 1, --waiting);
    }
  }
  return holds && ringbuf_elements(ring) == (int)waiting;
}

static void
check_random_calls(void)
{
  bool holds = true;
  for(size_t size = 1; size <= 255 && holds; size++) {
    struct ringbuf ring;
    uint8_t *data = malloc(size);
    waiting = 0;
    ringbuf_init(&ring, data, (uint8_t)size);
    for(int i = 0; i < RANDOM_CALLS / 250 && holds; i++) {
      holds = is_as_in_model(&ring, size);
    }
    free(data);
  }
  check("random calls", holds);
}

#ifndef NO_THREADS
enum { SENT = RANDOM_CALLS / 4 };
static struct ringbuf shared;

static void *
put_all(void *unused)
{
  for(uint32_t i = 0; i < SENT;) {
    i += (uint32_t)ringbuf_put(&shared, (uint8_t)(i * 7));
  }
  return unused;
}

static void
check_two_threads(void)
{
  uint8_t data[16];
  pthread_t thread;
  bool holds = true;
  ringbuf_init(&shared, data, sizeof data);
  if(pthread_create(&thread, NULL, put_all, NULL) != 0) {
    abort();
  }
  for(uint32_t i = 0; i < SENT;) {
    int byte = ringbuf_get(&shared);
    holds = holds && (byte == -1 || byte == (uint8_t)(i * 7));
    i += byte != -1;
  }
  pthread_join(thread, NULL);
  check("two threads", holds && ringbuf_elements(&shared) == 0);
}
#endif

int
main(void)
{
  check_worked_calls();
  check_wrong_arguments();
  check_random_calls();
#ifndef NO_THREADS
  check_two_threads();
#endif
  return conclude();
}
