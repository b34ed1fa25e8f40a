/* The number of the mote in its network; without a network it is 1. */
#ifndef NODE_ID_H_
#define NODE_ID_H_

#include <stdint.h>

extern uint16_t node_id;

#endif
