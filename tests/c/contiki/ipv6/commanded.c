/* A server of rpl-udp's requests with commands on the serial line, for its process, its network and its mote. */
#include "contiki.h"
#include "net/ipv6/simple-udp.h"
#include "net/netstack.h"
#include "net/routing/routing.h"

#include <stdio.h>

#include "sys/log.h"
#define LOG_MODULE "App"
#define LOG_LEVEL LOG_LEVEL_INFO

static struct simple_udp_connection connection;
PROCESS(server, "Server");
PROCESS(commands, "Commands");
AUTOSTART_PROCESSES(&commands, &server);

static void
answer(struct simple_udp_connection *c, const uip_ipaddr_t *sender, uint16_t from, const uip_ipaddr_t *receiver, uint16_t port,
       const uint8_t *data, uint16_t length)
{
  LOG_INFO("Received request '%.*s' from ", length, (const char *)data);
  LOG_INFO_6ADDR(sender);
  LOG_INFO_("\n");
  if(process_is_running(&server)) {
    simple_udp_sendto(c, data, length, sender);
  }
  (void)from;
  (void)receiver;
  (void)port;
}

PROCESS_THREAD(server, ev, data)
{
  PROCESS_BEGIN();
  NETSTACK_ROUTING.root_start();
  simple_udp_register(&connection, 5678, NULL, 8765, answer);
  printf("%d motes\n", uip_sr_num_nodes());
  while(1) {
    PROCESS_WAIT_EVENT();
  }
  PROCESS_END();
}

static void
obey(const char *command)
{
  if(strcmp(command, "stop") == 0) {
    process_exit(&server);
  } else if(strcmp(command, "start") == 0) {
    process_start(&server, NULL);
  } else if(strcmp(command, "leave") == 0) {
    NETSTACK_ROUTING.leave_network();
  } else if(strcmp(command, "root") == 0) {
    NETSTACK_ROUTING.root_start();
  } else if(strcmp(command, "again") == 0) {
    NETSTACK_ROUTING.leave_network();
    NETSTACK_ROUTING.root_start();
  } else if(strcmp(command, "nobody") == 0) {
    simple_udp_sendto(&connection, command, 6, NULL);
  } else if(strcmp(command, "repair") == 0) {
    NETSTACK_ROUTING.global_repair("by command");
  } else if(strcmp(command, "halt") == 0) {
    while(1) {
      clock_time();
    }
  }
}

PROCESS_THREAD(commands, ev, data)
{
  PROCESS_BEGIN();
  while(1) {
    PROCESS_WAIT_EVENT_UNTIL(ev == serial_line_event_message);
    printf("%s\n", (const char *)data);
    obey(data);
  }
  PROCESS_END();
}
