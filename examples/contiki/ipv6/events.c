/* UDP by events, as in the old Contiki: mote 1 sends back what the others send each 20 seconds. */
#include "contiki.h"
#include "contiki-net.h"
#include "sys/node-id.h"

#include <stdio.h>

#define SERVER_PORT 3000
#define CLIENT_PORT 3001

static struct uip_udp_conn *conn;

/*---------------------------------------------------------------------------*/
PROCESS(echo, "Echo");
AUTOSTART_PROCESSES(&echo);
/*---------------------------------------------------------------------------*/
static void
tcpip_handler(void)
{
  if(uip_newdata()) {
    printf("%.*s from port %u of ", uip_datalen(), (char *)uip_appdata, uip_ntohs(UIP_UDP_BUF->srcport));
    uiplib_ipaddr_print(&UIP_IP_BUF->srcipaddr);
    printf("\n");
    if(node_id == 1) {
      uip_udp_packet_sendto(conn, uip_appdata, uip_datalen(), &UIP_IP_BUF->srcipaddr, UIP_UDP_BUF->srcport);
    }
  }
}
/*---------------------------------------------------------------------------*/
static void
send_number(unsigned number)
{
  uip_ipaddr_t root;
  char text[20];
  if(node_id != 1 && NETSTACK_ROUTING.get_root_ipaddr(&root)) {
    uip_udp_packet_sendto(conn, text, snprintf(text, sizeof text, "number %u", number), &root, UIP_HTONS(SERVER_PORT));
  }
}
/*---------------------------------------------------------------------------*/
PROCESS_THREAD(echo, ev, data)
{
  static struct etimer timer;
  static unsigned count;

  PROCESS_BEGIN();
  if(node_id == 1) {
    NETSTACK_ROUTING.root_start();
  }
  conn = udp_new(NULL, node_id == 1 ? 0 : UIP_HTONS(SERVER_PORT), NULL);
  udp_bind(conn, node_id == 1 ? UIP_HTONS(SERVER_PORT) : UIP_HTONS(CLIENT_PORT));
  etimer_set(&timer, 20 * CLOCK_SECOND);
  while(1) {
    PROCESS_WAIT_EVENT();
    if(ev == tcpip_event) {
      tcpip_handler();
    } else if(etimer_expired(&timer)) {
      etimer_reset(&timer);
      send_number(++count);
    }
  }
  PROCESS_END();
}
/*---------------------------------------------------------------------------*/
