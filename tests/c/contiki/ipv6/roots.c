/* Mote 1 becomes a root as a line of its serial line says, and the motes print what routing.h says of their network. */
#include "contiki.h"
#include "net/ipv6/simple-udp.h"
#include "net/ipv6/uiplib.h"
#include "net/netstack.h"
#include "net/routing/routing.h"

#include <stdio.h>

enum { PORT = 4000 };

static struct simple_udp_connection connection, asking;
PROCESS(roots, "Roots");
AUTOSTART_PROCESSES(&roots);

static void
hear(struct simple_udp_connection *c, const uip_ipaddr_t *sender, uint16_t from, const uip_ipaddr_t *receiver, uint16_t port,
     const uint8_t *data, uint16_t length)
{
  printf("%.*s from ", length, (const char *)data);
  uiplib_ipaddr_print(sender);
  printf("\n");
  if(data[0] == '?') {
    simple_udp_sendto(c, "!", 1, sender);
  }
  (void)from;
  (void)receiver;
  (void)port;
}

static void
print_network(void)
{
  const uip_ipaddr_t *router = uip_ds6_defrt_choose();
  uip_lladdr_t link;
  uip_ipaddr_t address;
  printf("root %d, joined %d, reachable %d, leaf %d", NETSTACK_ROUTING.node_is_root(), NETSTACK_ROUTING.node_has_joined(),
         NETSTACK_ROUTING.node_is_reachable(), NETSTACK_ROUTING.is_in_leaf_mode());
  if(NETSTACK_ROUTING.get_root_ipaddr(&address)) {
    printf(", of ");
    uiplib_ipaddr_print(&address);
  }
  if(router != NULL) {
    uip_ds6_set_lladdr_from_iid(&link, router);
    printf(", by %02x%02x, ", link.addr[0], link.addr[1]);
    uiplib_ipaddr_print(router);
  }
  printf("\n");
}

static void
print_nodes(void)
{
  uip_ipaddr_t address;
  printf("%d %d nodes", NETSTACK_ROUTING.get_sr_node_ipaddr(NULL, NULL), NETSTACK_ROUTING.get_sr_node_ipaddr(&address, NULL));
  for(uip_sr_node_t *node = uip_sr_node_head(); node != NULL; node = uip_sr_node_next(node)) {
    printf(NETSTACK_ROUTING.get_sr_node_ipaddr(&address, node) ? " " : " none");
    uiplib_ipaddr_print(&address);
    printf(" %d %d", uip_sr_get_node(NULL, &address) == node, uip_sr_is_addr_reachable(NULL, &address));
  }
  printf("\n");
}

/* "prefix" and "end" are those of the next root; either alone, or both. */
static void
set_root(const char *words)
{
  uip_ipaddr_t prefix, end;
  uiplib_ipaddrconv("2001:db8:0:7:9999::", &prefix);
  uiplib_ipaddrconv("9999::1122:3344:5566:7788", &end);
  NETSTACK_ROUTING.root_set_prefix(strstr(words, "prefix") == NULL ? NULL : &prefix, strstr(words, "end") == NULL ? NULL : &end);
  printf("started %d\n", NETSTACK_ROUTING.root_start());
}

static void
ask_root(void)
{
  uip_ipaddr_t address;
  if(NETSTACK_ROUTING.get_root_ipaddr(&address)) {
    simple_udp_register(&asking, PORT, &address, PORT, NULL);
    simple_udp_send(&asking, "?", 1);
  }
}

PROCESS_THREAD(roots, ev, data)
{
  PROCESS_BEGIN();
  NETSTACK_ROUTING.init();
  simple_udp_register(&connection, PORT, NULL, PORT, hear);
  while(1) {
    PROCESS_WAIT_EVENT_UNTIL(ev == serial_line_event_message);
    if(strncmp(data, "root", 4) == 0) {
      set_root(data);
    } else if(strcmp(data, "network") == 0) {
      print_network();
    } else if(strcmp(data, "nodes") == 0) {
      print_nodes();
    } else if(strcmp(data, "ask") == 0) {
      ask_root();
    } else if(strcmp(data, "repair") == 0) {
      NETSTACK_ROUTING.global_repair("of a mote that is no root");
    }
  }
  PROCESS_END();
}
