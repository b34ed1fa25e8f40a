/*
 * ringbuf.h over the proved calls. Who puts writes put_ptr last, and who gets writes get_ptr last, so that the other one finds
 * the byte there, or the place empty.
 */
#include "lib/ringbuf.h"
#include "toarmuts/calls.h"

static size_t
size_of(const struct ringbuf *r)
{
  return (size_t)r->mask + 1;
}

void
ringbuf_init(struct ringbuf *r, uint8_t *data, uint8_t size)
{
  r->data = data;
  r->mask = size == 0 ? 0 : (uint8_t)(size - 1);
  r->put_ptr = 0;
  r->get_ptr = 0;
}

int
ringbuf_put(struct ringbuf *r, uint8_t c)
{
  uint8_t put = r->put_ptr;
  uint8_t get = __atomic_load_n(&r->get_ptr, __ATOMIC_ACQUIRE);
  if(r->data == NULL || !toarmuts_ringbuf_put(r->data, size_of(r), &put, get, c)) {
    return 0;
  }
  __atomic_store_n(&r->put_ptr, put, __ATOMIC_RELEASE);
  return 1;
}

int
ringbuf_get(struct ringbuf *r)
{
  uint8_t put = __atomic_load_n(&r->put_ptr, __ATOMIC_ACQUIRE);
  uint8_t get = r->get_ptr, byte = 0;
  if(r->data == NULL || !toarmuts_ringbuf_get(r->data, size_of(r), put, &get, &byte)) {
    return -1;
  }
  __atomic_store_n(&r->get_ptr, get, __ATOMIC_RELEASE);
  return byte;
}

int
ringbuf_size(struct ringbuf *r)
{
  return (int)size_of(r);
}

int
ringbuf_elements(struct ringbuf *r)
{
  uint8_t put = __atomic_load_n(&r->put_ptr, __ATOMIC_ACQUIRE);
  uint8_t get = __atomic_load_n(&r->get_ptr, __ATOMIC_ACQUIRE);
  return r->data == NULL ? 0 : (int)toarmuts_ringbuf_elements(r->data, size_of(r), put, get);
}
