/* Mote 3 sends packets that cause errors: one of hop limit 1 to the root, one to a port without a connection, one to no mote. */
#include "contiki.h"
#include "net/ipv6/tcpip.h"
#include "net/netstack.h"
#include "net/routing/routing.h"
#include "sys/node-id.h"

PROCESS(hops, "Hops");
AUTOSTART_PROCESSES(&hops);

static void
send_bad_packets(void)
{
  uip_ipaddr_t to;
  struct uip_udp_conn *conn = udp_new(NULL, UIP_HTONS(9), NULL);
  NETSTACK_ROUTING.get_root_ipaddr(&to);
  conn->ttl = 1;
  uip_udp_packet_sendto(conn, "a", 1, &to, UIP_HTONS(9));
  conn->ttl = 64;
  uip_udp_packet_sendto(conn, "b", 1, &to, UIP_HTONS(9));
  to.u8[15] = 0x77;
  uip_udp_packet_sendto(conn, "c", 1, &to, UIP_HTONS(9));
}

PROCESS_THREAD(hops, ev, data)
{
  static struct etimer timer;
  PROCESS_BEGIN();
  if(node_id == 1) {
    NETSTACK_ROUTING.root_start();
  }
  etimer_set(&timer, 60 * CLOCK_SECOND);
  PROCESS_WAIT_EVENT_UNTIL(etimer_expired(&timer));
  if(node_id == 3) {
    send_bad_packets();
  }
  while(1) {
    PROCESS_WAIT_EVENT();
  }
  PROCESS_END();
}
