/* ringbufindex.h in plain C, tested and not proved. Who puts writes put_ptr last, and who gets writes get_ptr last. */
#include "lib/ringbufindex.h"

static uint8_t
read_index(const uint8_t *index)
{
  return __atomic_load_n(index, __ATOMIC_ACQUIRE);
}

/* Moves an index on to the next place. */
static void
advance(const struct ringbufindex *r, uint8_t *index)
{
  __atomic_store_n(index, (uint8_t)((*index + 1) & r->mask), __ATOMIC_RELEASE);
}

void
ringbufindex_init(struct ringbufindex *r, uint8_t size)
{
  r->mask = (uint8_t)(size - 1);
  r->put_ptr = 0;
  r->get_ptr = 0;
}

int
ringbufindex_put(struct ringbufindex *r)
{
  if(ringbufindex_full(r)) {
    return 0;
  }
  advance(r, &r->put_ptr);
  return 1;
}

int
ringbufindex_peek_put(const struct ringbufindex *r)
{
  return ringbufindex_full(r) ? -1 : read_index(&r->put_ptr);
}

int
ringbufindex_get(struct ringbufindex *r)
{
  int place = ringbufindex_peek_get(r);
  if(place != -1) {
    advance(r, &r->get_ptr);
  }
  return place;
}

int
ringbufindex_peek_get(const struct ringbufindex *r)
{
  return ringbufindex_empty(r) ? -1 : read_index(&r->get_ptr);
}

int
ringbufindex_size(const struct ringbufindex *r)
{
  return r->mask + 1;
}

int
ringbufindex_elements(const struct ringbufindex *r)
{
  return (read_index(&r->put_ptr) - read_index(&r->get_ptr)) & r->mask;
}

int
ringbufindex_full(const struct ringbufindex *r)
{
  return ringbufindex_elements(r) == r->mask;
}

int
ringbufindex_empty(const struct ringbufindex *r)
{
  return ringbufindex_elements(r) == 0;
}
