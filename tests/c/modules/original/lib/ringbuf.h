/* Plain stand-ins with the signatures of Contiki-NG's ringbuf.h. */
#ifndef ORIGINAL_RINGBUF_H
#define ORIGINAL_RINGBUF_H

#include <stdint.h>

struct ringbuf {
  uint8_t *data;
  uint8_t mask;
  uint8_t put_ptr;
  uint8_t get_ptr;
};

void ringbuf_init(struct ringbuf *r, uint8_t *data, uint8_t size_power_of_two);
int ringbuf_put(struct ringbuf *r, uint8_t c);
int ringbuf_get(struct ringbuf *r);
int ringbuf_size(struct ringbuf *r);
int ringbuf_elements(struct ringbuf *r);

#endif
