/*
 * NullNet. In a network a frame has a header with its sender and its receiver, and at most 127 bytes in all. Without a network it has 1
 * to 127 bytes as the program writes them.
 */
#ifndef NULLNET_H_
#define NULLNET_H_

#include <stdint.h>

#include "net/linkaddr.h"
#include "net/netstack.h"

/* The frame to send: NETSTACK_NETWORK.output(destination) sends it. */
extern uint8_t *nullnet_buf;
extern uint16_t nullnet_len;

/* The callback for a frame that arrives. The bytes are valid until it returns. dest is the mote's address, or linkaddr_null if the frame is
 * for all. If the frame has no header, both addresses are linkaddr_null. */
typedef void (*nullnet_input_callback)(const void *data, uint16_t len, const linkaddr_t *src, const linkaddr_t *dest);

/* Sets the callback. The process that calls this first receives the frames from then on, and the callback runs within its activations. */
void nullnet_set_input_callback(nullnet_input_callback callback);

#endif
