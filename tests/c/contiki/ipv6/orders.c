/* Calls of the IPv6 stack where another process is active, in callbacks, and in EXIT: mote 1 is the root, mote 2 sends. */
#include "contiki.h"
#include "net/ipv6/simple-udp.h"
#include "net/netstack.h"
#include "net/routing/routing.h"
#include "sys/node-id.h"

#include <stdio.h>

enum { NESTED = 150, POSTED, ROOT };

static struct simple_udp_connection connection, any;
static struct ctimer later;
static uip_ipaddr_t peer;
PROCESS(main_process, "Main");
PROCESS(helper, "Helper");
AUTOSTART_PROCESSES(&helper, &main_process);

static void
say(const char *text)
{
  simple_udp_sendto(&connection, text, (uint16_t)strlen(text), &peer);
}

static void
send_later(void *text)
{
  say(text);
}

/* The helper sends within the stack's activation, the main process and a timer later on. */
static void
hear(struct simple_udp_connection *c, const uip_ipaddr_t *sender, uint16_t from, const uip_ipaddr_t *receiver, uint16_t port,
     const uint8_t *data, uint16_t length)
{
  printf("%.*s in %s\n", length, (const char *)data, PROCESS_CURRENT()->name);
  peer = *sender;
  if(node_id == 1 && length == 3) {
    process_post_synch(&helper, NESTED, "nested");
    process_post(&main_process, POSTED, "posted");
    ctimer_set(&later, 64, send_later, "by timer");
  }
  (void)c;
  (void)from;
  (void)receiver;
  (void)port;
}

PROCESS_THREAD(helper, ev, data)
{
  PROCESS_EXITHANDLER(say("farewell"));
  PROCESS_BEGIN();
  while(1) {
    PROCESS_WAIT_EVENT();
    if(ev == NESTED) {
      say(data);
    } else if(ev == ROOT) {
      int status = NETSTACK_ROUTING.root_start();
      printf("root %d %d\n", status, NETSTACK_ROUTING.node_is_root());
    }
  }
  PROCESS_END();
}

/* What mote 2 does each 20 seconds. */
static void
work(int round)
{
  printf("round %d, joined %d\n", round, NETSTACK_ROUTING.node_has_joined());
  if(round == 1) {
    NETSTACK_ROUTING.get_root_ipaddr(&peer);
    say("abc");
    say("");
    simple_udp_sendto(&connection, NULL, 0, &peer);
  } else if(round == 2) {
    NETSTACK_ROUTING.local_repair("by the program");
  } else if(round == 3) {
    NETSTACK_ROUTING.leave_network();
    say("sent before the stack leaves");
  } else if(round == 5) {
    process_exit(&helper);
    process_exit(&main_process);
  }
}

PROCESS_THREAD(main_process, ev, data)
{
  static struct etimer timer;
  static int round;
  PROCESS_BEGIN();
  printf("registered %d\n", simple_udp_register(&connection, 1000, NULL, 1000, hear));
  simple_udp_register(&any, 0, NULL, 0, hear);
  printf("another port %d\n", any.local_port != 1000);
  if(node_id == 1) {
    process_post_synch(&helper, ROOT, NULL);
  }
  etimer_set(&timer, 20 * CLOCK_SECOND);
  while(1) {
    PROCESS_WAIT_EVENT();
    if(ev == POSTED) {
      say(data);
    } else if(node_id == 2 && ev == PROCESS_EVENT_TIMER) {
      etimer_reset(&timer);
      work(++round);
    }
  }
  PROCESS_END();
}
