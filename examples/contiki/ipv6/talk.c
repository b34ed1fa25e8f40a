/*
 * Motes talk by lines of their serial lines. Mote 1 is the root. "3 text" asks mote 3, which answers; "* text" goes to all in reach; "3
 * #300" sends 300 bytes to mote 3.
 */
#include "contiki.h"
#include "net/ipv6/simple-udp.h"
#include "net/ipv6/uip-ds6.h"
#include "net/ipv6/uiplib.h"
#include "net/netstack.h"
#include "net/routing/routing.h"
#include "sys/node-id.h"

#include <stdio.h>
#include <stdlib.h>

#define QUESTIONS 4000
#define ANSWERS 4001

static struct simple_udp_connection questions, answers;

/*---------------------------------------------------------------------------*/
PROCESS(talk, "Talk");
AUTOSTART_PROCESSES(&talk);
/*---------------------------------------------------------------------------*/
static uip_ipaddr_t
address_of(unsigned mote)
{
  uip_ipaddr_t address = *uip_ds6_default_prefix();
  uip_lladdr_t link;
  for(unsigned i = 0; i < sizeof link.addr; i += 2) {
    link.addr[i] = (uint8_t)(mote >> 8);
    link.addr[i + 1] = (uint8_t)mote;
  }
  uip_ds6_set_addr_iid(&address, &link);
  return address;
}
/*---------------------------------------------------------------------------*/
static void
hear(struct simple_udp_connection *c, const uip_ipaddr_t *sender, uint16_t sender_port, const uip_ipaddr_t *receiver,
     uint16_t receiver_port, const uint8_t *data, uint16_t length)
{
  char text[24];
  printf("%s %.*s, %u bytes, from ", receiver_port == QUESTIONS ? "asked" : "answered", length > 12 ? 12 : length, (const char *)data,
         length);
  uiplib_ipaddr_print(sender);
  printf(" to ");
  uiplib_ipaddr_print(receiver);
  printf("\n");
  if(receiver_port == QUESTIONS) {
    int size = snprintf(text, sizeof text, "%u heard %u", node_id, length);
    simple_udp_sendto_port(&questions, text, (uint16_t)size, sender, ANSWERS);
  }
  (void)c;
  (void)sender_port;
}
/*---------------------------------------------------------------------------*/
static void
say(const char *line)
{
  static char bytes[2000];
  uip_ipaddr_t to;
  char *end;
  unsigned long mote = strtoul(line, &end, 10);
  if(line[0] == '*') {
    uip_create_linklocal_allnodes_mcast(&to);
    simple_udp_sendto(&answers, line + 2, (uint16_t)strlen(line + 2), &to);
    return;
  }
  to = address_of((unsigned)mote);
  if(end[1] == '#') {
    memset(bytes, 'b', sizeof bytes);
    simple_udp_sendto(&answers, bytes, (uint16_t)strtoul(end + 2, NULL, 10), &to);
  } else {
    simple_udp_sendto(&answers, end + 1, (uint16_t)strlen(end + 1), &to);
  }
}
/*---------------------------------------------------------------------------*/
PROCESS_THREAD(talk, ev, data)
{
  PROCESS_BEGIN();
  if(node_id == 1) {
    NETSTACK_ROUTING.root_start();
  }
  simple_udp_register(&questions, QUESTIONS, NULL, 0, hear);
  simple_udp_register(&answers, ANSWERS, NULL, QUESTIONS, hear);
  while(1) {
    PROCESS_WAIT_EVENT_UNTIL(ev == serial_line_event_message);
    say((const char *)data);
  }
  PROCESS_END();
}
/*---------------------------------------------------------------------------*/
