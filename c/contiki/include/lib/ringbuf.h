/* Ring buffers of bytes. The size is a power of two up to 128, and the buffer holds one byte less. */
#ifndef RINGBUF_H_
#define RINGBUF_H_

#include <stdint.h>

struct ringbuf {
  uint8_t *data;
  uint8_t mask;
  uint8_t put_ptr, get_ptr;
};

void ringbuf_init(struct ringbuf *r, uint8_t *data, uint8_t size_power_of_two);

/* Appends a byte: 1; 0 if the buffer is full. */
int ringbuf_put(struct ringbuf *r, uint8_t c);

/* Removes and returns the oldest byte; -1 if there is none. */
int ringbuf_get(struct ringbuf *r);

/* The buffer's size, and the number of its bytes. */
int ringbuf_size(struct ringbuf *r);
int ringbuf_elements(struct ringbuf *r);

#endif
