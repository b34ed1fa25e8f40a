/*
 * A queue of bytes in a ring: ringbuf.h of Contiki-NG, over proved calls. For x86-64 and aarch64, and for Cortex-M as
 * docs/boards.md says.
 *
 * One thread or signal handler may put, and one other may get, at the same time. The proof is about one call at a time; for two at
 * once the result rests on the order in which put_ptr and get_ptr are read and written, which is tested.
 * Duties of the caller: data is valid for size bytes, and overlaps no other object; NULL is allowed. A ring is not NULL. Only these
 * calls write to a ring, but each of them returns for any content. Each call needs less than 1 KB of stack.
 */
#ifndef RINGBUF_H_
#define RINGBUF_H_

#include "toarmuts/common.h"

TOARMUTS_BEGIN

struct ringbuf {
  uint8_t *data;
  uint8_t mask; /* the size, less 1 */
  uint8_t put_ptr;
  uint8_t get_ptr;
};

/*
 * Makes an empty ring of size bytes at data. It holds one byte less. Contiki-NG needs a power of 2 as the size; here any from 1 to
 * 255 is allowed. A ring of no bytes, or at NULL, is full and empty.
 */
void ringbuf_init(struct ringbuf *r, uint8_t *data, uint8_t size);

/* Appends a byte and returns 1; 0, and nothing changes, if the ring is full. */
int ringbuf_put(struct ringbuf *r, uint8_t c);

/* Removes the oldest byte and returns it; -1 if there is none. */
int ringbuf_get(struct ringbuf *r);

/* The size of the ring. */
int ringbuf_size(struct ringbuf *r);

/* The number of bytes in the ring. */
int ringbuf_elements(struct ringbuf *r);

TOARMUTS_END

#endif
