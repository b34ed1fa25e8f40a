/*
 * Indices of a ring: ringbufindex.h of Contiki-NG, in plain C. The caller has the items, in an array of the ring's size. It is tested,
 * and not proved.
 *
 * Duties of the caller: a ring is not NULL, and its size is a power of 2 up to 128. It holds one item less. One thread or signal
 * handler may put, and one other may get, at the same time: each writes only one of the two indices.
 */
#ifndef RINGBUFINDEX_H_
#define RINGBUFINDEX_H_

#include "../toarmuts/common.h"

TOARMUTS_BEGIN

struct ringbufindex {
  uint8_t mask; /* the size, less 1 */
  uint8_t put_ptr, get_ptr;
};

/* Makes an empty ring of this size. */
void ringbufindex_init(struct ringbufindex *r, uint8_t size);

/* Appends the item that was written at ringbufindex_peek_put: 1; 0, and nothing changes, if the ring is full. */
int ringbufindex_put(struct ringbufindex *r);

/* The index at which the next item must be written; -1 if the ring is full. */
int ringbufindex_peek_put(const struct ringbufindex *r);

/* Removes the oldest item and returns its index; -1 if there is none. */
int ringbufindex_get(struct ringbufindex *r);

/* The index of the oldest item; -1 if there is none. */
int ringbufindex_peek_get(const struct ringbufindex *r);

/* The size of the ring, and the number of items. */
int ringbufindex_size(const struct ringbufindex *r);
int ringbufindex_elements(const struct ringbufindex *r);

/* Whether the ring is full, and whether it is empty: not 0, or 0. */
int ringbufindex_full(const struct ringbufindex *r);
int ringbufindex_empty(const struct ringbufindex *r);

TOARMUTS_END

#endif
