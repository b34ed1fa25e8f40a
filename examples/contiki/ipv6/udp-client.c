/* The client of rpl-udp: sends a request to the root about every 10 seconds, once the root has a route to it. */
#include "contiki.h"
#include "net/ipv6/simple-udp.h"
#include "net/netstack.h"
#include "net/routing/routing.h"

#include "lib/random.h"

#include <inttypes.h>

#include "sys/log.h"
#define LOG_MODULE "App"
#define LOG_LEVEL LOG_LEVEL_INFO

#define UDP_CLIENT_PORT 8765
#define UDP_SERVER_PORT 5678
#define SEND_INTERVAL (10 * CLOCK_SECOND)

static struct simple_udp_connection connection;
static uint32_t sent, received, missed;

/*---------------------------------------------------------------------------*/
PROCESS(udp_client_process, "UDP client");
AUTOSTART_PROCESSES(&udp_client_process);
/*---------------------------------------------------------------------------*/
static void
take_response(struct simple_udp_connection *c, const uip_ipaddr_t *sender, uint16_t sender_port, const uip_ipaddr_t *receiver,
              uint16_t receiver_port, const uint8_t *data, uint16_t length)
{
  LOG_INFO("Received response '%.*s' from ", length, (const char *)data);
  LOG_INFO_6ADDR(sender);
  LOG_INFO_("\n");
  received++;
  (void)c;
  (void)sender_port;
  (void)receiver;
  (void)receiver_port;
}
/*---------------------------------------------------------------------------*/
static void
send_request(const uip_ipaddr_t *root)
{
  char text[32];
  if(sent % 10 == 0) {
    LOG_INFO("Tx/Rx/MissedTx: %" PRIu32 "/%" PRIu32 "/%" PRIu32 "\n", sent, received, missed);
  }
  LOG_INFO("Sending request %" PRIu32 " to ", sent);
  LOG_INFO_6ADDR(root);
  LOG_INFO_("\n");
  snprintf(text, sizeof text, "hello %" PRIu32, sent);
  simple_udp_sendto(&connection, text, (uint16_t)strlen(text), root);
  sent++;
}
/*---------------------------------------------------------------------------*/
PROCESS_THREAD(udp_client_process, ev, data)
{
  static struct etimer timer;
  uip_ipaddr_t root;

  PROCESS_BEGIN();
  simple_udp_register(&connection, UDP_CLIENT_PORT, NULL, UDP_SERVER_PORT, take_response);
  etimer_set(&timer, random_rand() % SEND_INTERVAL);
  while(1) {
    PROCESS_WAIT_EVENT_UNTIL(etimer_expired(&timer));
    if(NETSTACK_ROUTING.node_is_reachable() && NETSTACK_ROUTING.get_root_ipaddr(&root)) {
      send_request(&root);
    } else {
      LOG_INFO("Not reachable yet\n");
      missed += sent > 0;
    }
    etimer_set(&timer, SEND_INTERVAL - CLOCK_SECOND + random_rand() % (2 * CLOCK_SECOND));
  }
  PROCESS_END();
}
/*---------------------------------------------------------------------------*/
