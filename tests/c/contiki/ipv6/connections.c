/* UDP by events: a full table of connections, one that hears a single mote, groups, and a connection whose process ends. */
#include "contiki.h"
#include "net/ipv6/tcpip.h"
#include "net/ipv6/uip-ds6.h"

#include <stdio.h>

enum { OF_ALL = 3000, OF_ONE = 3001, OF_OTHER = 3002 };

PROCESS(other, "Other");
PROCESS(connections, "Connections");
AUTOSTART_PROCESSES(&other, &connections);

static struct uip_udp_conn *all;
static int state;

static void
hear(const void *data)
{
  printf("%.*s from port %u, %d %d, new %d\n", uip_datalen(), (const char *)uip_appdata, uip_ntohs(UIP_UDP_BUF->srcport), data == &state,
         uip_udp_conn == all, uip_newdata());
}

PROCESS_THREAD(other, ev, data)
{
  PROCESS_BEGIN();
  udp_bind(udp_new(NULL, 0, NULL), UIP_HTONS(OF_OTHER));
  PROCESS_WAIT_EVENT_UNTIL(ev == PROCESS_EVENT_CONTINUE);
  PROCESS_END();
}

/* Connections until there are too many; returns their number. The last one is removed again. */
static int
fill_table(void)
{
  struct uip_udp_conn *conn, *last = NULL;
  int count = 0;
  while((conn = udp_new(NULL, UIP_HTONS(1), NULL)) != NULL) {
    last = conn;
    count++;
  }
  printf("%d more, then %d\n", count, udp_broadcast_new(UIP_HTONS(OF_ALL), NULL) == NULL);
  uip_udp_remove(last);
  return count;
}

/* A connection with mote 1 alone, by its address of the link. */
static void
connect_to_one(void)
{
  static const uip_lladdr_t first = {{0, 1, 0, 1, 0, 1, 0, 1}};
  uip_ipaddr_t address = {{0xfe, 0x80}};
  uip_ds6_set_addr_iid(&address, &first);
  udp_bind(udp_new(&address, 0, &state), UIP_HTONS(OF_ONE));
}

static void
obey(const char *command)
{
  if(strcmp(command, "end") == 0) {
    process_post(&other, PROCESS_EVENT_CONTINUE, NULL);
  } else if(strcmp(command, "nothing") == 0) {
    uip_udp_packet_send(all, NULL, 3);
    uip_udp_packet_send(all, command, 0);
  } else if(strcmp(command, "drop") == 0) {
    printf("dropped %u\n", uip_stat.udp.drop);
  } else if(strcmp(command, "one") == 0) {
    uip_udp_packet_sendto(all, command, 3, &all->ripaddr, UIP_HTONS(OF_ONE));
  } else if(strcmp(command, "other") == 0) {
    uip_udp_packet_sendto(all, command, 5, &all->ripaddr, UIP_HTONS(OF_OTHER));
  } else {
    uip_udp_packet_send(all, command, (int)strlen(command));
  }
}

PROCESS_THREAD(connections, ev, data)
{
  PROCESS_BEGIN();
  connect_to_one();
  fill_table();
  all = udp_broadcast_new(UIP_HTONS(OF_ALL), NULL);
  printf("port %u\n", uip_ntohs(all->lport));
  while(1) {
    PROCESS_WAIT_EVENT();
    if(ev == tcpip_event) {
      hear(data);
    } else if(ev == serial_line_event_message) {
      obey(data);
    }
  }
  PROCESS_END();
}
