/* Sockets: a question to all in reach, answers to the one that asked, calls on a socket that isn't registered, and closing. */
#include "contiki.h"
#include "net/ipv6/udp-socket.h"
#include "net/ipv6/uip.h"
#include "sys/node-id.h"

#include <stdio.h>
#include <string.h>

enum { ASKED = 3000, ASKING = 4000 };

PROCESS(sockets, "Sockets");
PROCESS(other, "Other");
AUTOSTART_PROCESSES(&other, &sockets);

static struct udp_socket asked, asking, unused;
static char name[] = "mine";

static void
hear_question(struct udp_socket *c, void *ptr, const uip_ipaddr_t *source_addr, uint16_t source_port, const uip_ipaddr_t *dest_addr,
              uint16_t dest_port, const uint8_t *data, uint16_t datalen)
{
  printf("question %d %d from %u to %u, %02x%02x: %.*s in %s\n", c == &asked, ptr == name, source_port, dest_port, dest_addr->u8[0],
         dest_addr->u8[1], datalen, (const char *)data, PROCESS_CURRENT()->name);
  printf("sent %d\n", udp_socket_sendto(c, "four", 4, source_addr, source_port));
}

static void
hear_answer(struct udp_socket *c, void *ptr, const uip_ipaddr_t *source_addr, uint16_t source_port, const uip_ipaddr_t *dest_addr,
            uint16_t dest_port, const uint8_t *data, uint16_t datalen)
{
  (void)dest_addr;
  printf("answer %d %d from mote %u, %u to %u: %.*s\n", c == &asking, ptr == NULL, source_addr->u8[15], source_port, dest_port, datalen,
         (const char *)data);
}

PROCESS_THREAD(other, ev, data)
{
  PROCESS_BEGIN();
  PROCESS_WAIT_EVENT();
  PROCESS_END();
}

static void
ask(const char *text)
{
  uip_ipaddr_t all;
  uip_create_linklocal_allnodes_mcast(&all);
  printf("%d", udp_socket_connect(&asking, &all, ASKED));
  printf(" %d\n", udp_socket_send(&asking, text, (uint16_t)strlen(text)));
}

PROCESS_THREAD(sockets, ev, data)
{
  PROCESS_BEGIN();
  printf("%d %d %d\n", udp_socket_register(NULL, NULL, NULL), udp_socket_bind(&unused, 1), udp_socket_connect(&unused, NULL, 1));
  printf("%d %d\n", udp_socket_send(&unused, "x", 1), udp_socket_close(&unused));
  printf("%d", udp_socket_register(&asked, name, hear_question));
  printf(" %d\n", udp_socket_bind(&asked, ASKED));
  printf("%d", udp_socket_register(&asking, NULL, hear_answer));
  printf(" %d\n", udp_socket_bind(&asking, ASKING));
  while(1) {
    PROCESS_WAIT_EVENT_UNTIL(ev == serial_line_event_message);
    if(strcmp(data, "close") == 0) {
      printf("%d\n", udp_socket_close(&asked));
      printf("%d %d\n", udp_socket_close(&asked), udp_socket_send(&asked, "x", 1));
    } else {
      ask(data);
    }
  }
  PROCESS_END();
}
