/* The layers of the network: NullNet, or UDP over IPv6 with routing, and below either a radio that can be turned off. */
#ifndef NETSTACK_H_
#define NETSTACK_H_

#include <stdint.h>

#include "net/linkaddr.h"
#include "net/routing/routing.h"
#include "sys/cc.h"

struct network_driver {
  const char *name;
  void (*init)(void);
  void (*input)(void);
  /* Sends the frame of nullnet_buf and nullnet_len to one mote, or to all if the address is NULL or linkaddr_null. Returns 1, or 0 if
   * managed memory has no room for it. */
  uint8_t (*output)(const linkaddr_t *localdest);
};

extern const struct network_driver nullnet_driver;
#define NETSTACK_NETWORK nullnet_driver

/* A program that names this, or a call of UDP, has the IPv6 stack with its process "TCP/IP stack". It has no NullNet then. */
#define NETSTACK_ROUTING rpl_lite_driver

/* The radio. It is on from the start. While it is off, frames that arrive are dropped; sending works all the same. In a program that names
 * it, ENERGEST_TYPE_LISTEN is on while the radio is. */
struct radio_driver {
  /* Both return 1. */
  int (*on)(void);
  int (*off)(void);
};

extern const struct radio_driver mote_radio_driver;
#define NETSTACK_RADIO mote_radio_driver

/* The MAC layer: a source that names it gets a compile error with the reason. */
struct no_layer {
  int (*on)(void);
  int (*off)(void);
};

CC_REFUSED("the mote has no MAC layer: send and receive by net/nullnet/nullnet.h") const struct no_layer *netstack_mac(void);
#define NETSTACK_MAC (*netstack_mac())

#endif
