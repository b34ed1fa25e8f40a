/* The root's table of motes: the parent of each, for source routes. The root itself is in it. */
#ifndef UIP_SR_H_
#define UIP_SR_H_

#include "net/ipv6/uip.h"

#define UIP_SR_INFINITE_LIFETIME 0xffffffff

typedef struct uip_sr_node {
  unsigned char link_identifier[8]; /* the last 8 bytes of its address */
  struct uip_sr_node *parent;       /* NULL for the root, and where no parent is known */
  uint32_t lifetime;                /* the second of the clock when it ends, or UIP_SR_INFINITE_LIFETIME */
} uip_sr_node_t;

int uip_sr_num_nodes(void);
uip_sr_node_t *uip_sr_node_head(void);
uip_sr_node_t *uip_sr_node_next(uip_sr_node_t *item);

/* The graph is always NULL. */
uip_sr_node_t *uip_sr_get_node(const void *graph, const uip_ipaddr_t *addr);
int uip_sr_is_addr_reachable(const void *graph, const uip_ipaddr_t *addr);

#endif
