/*
 * A root that has forgotten all, as after a boot: the line "be" makes a mote with a new memory, which has heard no frame before, the one
 * with the address of mote 1. It answers requests of rpl-udp.
 */
#include "contiki.h"
#include "net/ipv6/simple-udp.h"
#include "net/ipv6/uip-ds6.h"
#include "net/netstack.h"
#include "net/routing/routing.h"

#include <stdio.h>

static struct simple_udp_connection connection;
PROCESS(heir, "Heir");
AUTOSTART_PROCESSES(&heir);

static void
answer(struct simple_udp_connection *c, const uip_ipaddr_t *sender, uint16_t from, const uip_ipaddr_t *receiver, uint16_t port,
       const uint8_t *data, uint16_t length)
{
  simple_udp_sendto(c, data, length, sender);
  (void)from;
  (void)receiver;
  (void)port;
}

/* The link-layer address, and the address of the link that ends in it. */
static void
take_address(const linkaddr_t *link)
{
  uip_ipaddr_t address = {{0xfe, 0x80}};
  linkaddr_set_node_addr((linkaddr_t *)(uintptr_t)link);
  memcpy(&uip_lladdr, link, sizeof uip_lladdr);
  uip_ds6_set_addr_iid(&address, &uip_lladdr);
  uip_ds6_addr_rm(uip_ds6_get_link_local(-1));
  uip_ds6_addr_add(&address, 0, ADDR_AUTOCONF);
}

PROCESS_THREAD(heir, ev, data)
{
  static const linkaddr_t first = {{0, 1, 0, 1, 0, 1, 0, 1}};
  PROCESS_BEGIN();
  NETSTACK_RADIO.off();
  PROCESS_WAIT_EVENT_UNTIL(ev == serial_line_event_message);
  take_address(&first);
  simple_udp_register(&connection, 5678, NULL, 8765, answer);
  NETSTACK_RADIO.on();
  NETSTACK_ROUTING.root_start();
  while(1) {
    PROCESS_WAIT_EVENT_UNTIL(ev == serial_line_event_message);
    printf("%s\n", (const char *)data);
  }
  PROCESS_END();
}
