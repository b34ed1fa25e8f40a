/* The routing protocol: RPL, without routes in the motes (rpl-lite of Contiki-NG). */
#ifndef ROUTING_H_
#define ROUTING_H_

#include "net/ipv6/settings.h"
#include "net/ipv6/uip.h"
#include "net/ipv6/uip-ds6.h"
#include "net/ipv6/uip-sr.h"
#include "net/netstack.h"

struct routing_driver {
  const char *name;
  void (*init)(void);
  /* Before root_start: another prefix than fd00::/64, and another end of the address than the mote's. Either may be NULL. */
  void (*root_set_prefix)(uip_ipaddr_t *prefix, uip_ipaddr_t *iid);
  /* The mote becomes the root of a new network; 0, or -1 if it can't. */
  int (*root_start)(void);
  int (*node_is_root)(void);
  /* The root's address; 0 if the mote has joined no network. */
  int (*get_root_ipaddr)(uip_ipaddr_t *ipaddr);
  int (*get_sr_node_ipaddr)(uip_ipaddr_t *addr, const uip_sr_node_t *node);
  void (*leave_network)(void);
  int (*node_has_joined)(void);
  /* Whether the root has confirmed that it has a route to the mote. */
  int (*node_is_reachable)(void);
  /* The root begins a new version of the network; a mote looks for another parent. */
  void (*global_repair)(const char *str);
  void (*local_repair)(const char *str);
  uint8_t (*is_in_leaf_mode)(void);
};

extern const struct routing_driver rpl_lite_driver;

#endif
