/* A sensor: each 30 seconds it sends a reading to the root, its number and the count of its readings. */
#include "contiki.h"
#include "net/ipv6/simple-udp.h"
#include "net/netstack.h"
#include "net/routing/routing.h"
#include "sys/node-id.h"

#include <stdio.h>

#define PORT 4000

static struct simple_udp_connection connection;

/*---------------------------------------------------------------------------*/
PROCESS(sensor, "Sensor");
AUTOSTART_PROCESSES(&sensor);
/*---------------------------------------------------------------------------*/
static void
send_reading(unsigned count)
{
  uip_ipaddr_t root;
  char text[16];
  if(NETSTACK_ROUTING.get_root_ipaddr(&root)) {
    int length = snprintf(text, sizeof text, "%u.%u", node_id, count);
    simple_udp_sendto(&connection, text, (uint16_t)length, &root);
  } else {
    printf("no network\n");
  }
}
/*---------------------------------------------------------------------------*/
PROCESS_THREAD(sensor, ev, data)
{
  static struct etimer timer;
  static unsigned count;

  PROCESS_BEGIN();
  simple_udp_register(&connection, PORT, NULL, PORT, NULL);
  etimer_set(&timer, 30 * CLOCK_SECOND);
  while(1) {
    PROCESS_WAIT_EVENT_UNTIL(etimer_expired(&timer));
    etimer_reset(&timer);
    send_reading(++count);
  }
  PROCESS_END();
}
/*---------------------------------------------------------------------------*/
