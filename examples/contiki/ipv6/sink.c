/* A sink: the root of a network, which prints the readings that motes send to it. */
#include "contiki.h"
#include "net/ipv6/simple-udp.h"
#include "net/ipv6/uiplib.h"
#include "net/netstack.h"
#include "net/routing/routing.h"

#include <stdio.h>

#define PORT 4000

static struct simple_udp_connection connection;

/*---------------------------------------------------------------------------*/
PROCESS(sink, "Sink");
AUTOSTART_PROCESSES(&sink);
/*---------------------------------------------------------------------------*/
static void
collect(struct simple_udp_connection *c, const uip_ipaddr_t *sender, uint16_t sender_port, const uip_ipaddr_t *receiver,
        uint16_t receiver_port, const uint8_t *data, uint16_t length)
{
  uiplib_ipaddr_print(sender);
  printf(" measures %.*s\n", length, (const char *)data);
  (void)c;
  (void)sender_port;
  (void)receiver;
  (void)receiver_port;
}
/*---------------------------------------------------------------------------*/
PROCESS_THREAD(sink, ev, data)
{
  PROCESS_BEGIN();
  NETSTACK_ROUTING.root_start();
  simple_udp_register(&connection, PORT, NULL, 0, collect);
  PROCESS_END();
}
/*---------------------------------------------------------------------------*/
