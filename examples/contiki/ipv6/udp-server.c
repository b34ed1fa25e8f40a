/* The server of rpl-udp: the root of the network, which sends back each request. */
#include "contiki.h"
#include "net/ipv6/simple-udp.h"
#include "net/netstack.h"
#include "net/routing/routing.h"

#include "sys/log.h"
#define LOG_MODULE "App"
#define LOG_LEVEL LOG_LEVEL_INFO

#define UDP_CLIENT_PORT 8765
#define UDP_SERVER_PORT 5678

static struct simple_udp_connection connection;

/*---------------------------------------------------------------------------*/
PROCESS(udp_server_process, "UDP server");
AUTOSTART_PROCESSES(&udp_server_process);
/*---------------------------------------------------------------------------*/
static void
answer(struct simple_udp_connection *c, const uip_ipaddr_t *sender, uint16_t sender_port, const uip_ipaddr_t *receiver,
       uint16_t receiver_port, const uint8_t *data, uint16_t length)
{
  LOG_INFO("Received request '%.*s' from ", length, (const char *)data);
  LOG_INFO_6ADDR(sender);
  LOG_INFO_("\n");
  LOG_INFO("Sending response.\n");
  simple_udp_sendto(c, data, length, sender);
  (void)sender_port;
  (void)receiver;
  (void)receiver_port;
}
/*---------------------------------------------------------------------------*/
PROCESS_THREAD(udp_server_process, ev, data)
{
  PROCESS_BEGIN();
  NETSTACK_ROUTING.root_start();
  simple_udp_register(&connection, UDP_SERVER_PORT, NULL, UDP_CLIENT_PORT, answer);
  PROCESS_END();
}
/*---------------------------------------------------------------------------*/
