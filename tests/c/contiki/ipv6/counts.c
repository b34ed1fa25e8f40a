/* Mote 1 is a root, and each mote prints the packets that arrive at port 4000. A line of the serial line, a name, prints a count of what
 * was received or dropped, "nodes" the size of the root's table; "halt" halts the mote. */
#include "contiki.h"
#include "net/ipv6/simple-udp.h"
#include "net/ipv6/uiplib.h"
#include "net/netstack.h"
#include "net/routing/routing.h"
#include "sys/node-id.h"

#include <stdio.h>

static struct simple_udp_connection connection, compressed;
PROCESS(counts, "Counts");
AUTOSTART_PROCESSES(&counts);

static const struct {
  const char *name;
  const uip_stats_t *count;
} all[] = {
  {"mac.drop", &uip_stat.mac.drop},   {"sicslowpan.drop", &uip_stat.sicslowpan.drop}, {"ip.drop", &uip_stat.ip.drop},
  {"ip.vhlerr", &uip_stat.ip.vhlerr}, {"ip.lblenerr", &uip_stat.ip.lblenerr},         {"ip.protoerr", &uip_stat.ip.protoerr},
  {"ip.recv", &uip_stat.ip.recv},     {"icmp.chkerr", &uip_stat.icmp.chkerr},         {"icmp.typeerr", &uip_stat.icmp.typeerr},
  {"icmp.drop", &uip_stat.icmp.drop}, {"udp.chkerr", &uip_stat.udp.chkerr},           {"udp.drop", &uip_stat.udp.drop},
  {"mac.lost", &uip_stat.mac.lost},   {"ip.forwarded", &uip_stat.ip.forwarded},
};

static void
hear(struct simple_udp_connection *c, const uip_ipaddr_t *sender, uint16_t from, const uip_ipaddr_t *receiver, uint16_t port,
     const uint8_t *data, uint16_t length)
{
  uiplib_ipaddr_print(sender);
  printf(" %u to ", from);
  uiplib_ipaddr_print(receiver);
  printf(" %u: %.*s\n", port, length, (const char *)data);
  (void)c;
}

PROCESS_THREAD(counts, ev, data)
{
  PROCESS_BEGIN();
  if(node_id == 1) {
    NETSTACK_ROUTING.root_start();
  }
  simple_udp_register(&connection, 4000, NULL, 0, hear);
  simple_udp_register(&compressed, 0xf0b3, NULL, 0, hear);
  while(1) {
    PROCESS_WAIT_EVENT_UNTIL(ev == serial_line_event_message);
    while(strcmp(data, "halt") == 0) {
      clock_time();
    }
    if(strcmp(data, "nodes") == 0) {
      printf("nodes %d\n", uip_sr_num_nodes());
    }
    for(size_t i = 0; i < sizeof all / sizeof all[0]; i++) {
      if(strcmp(all[i].name, data) == 0) {
        printf("%s %u\n", all[i].name, *all[i].count);
      }
    }
  }
  PROCESS_END();
}
