/* UDP by events: tcpip.h. Its connections are also those of udp-socket.h. */
#include "net/ipv6/tcpip.h"

#include "stack.h"

enum { CONNECTIONS = 10 };

static struct uip_udp_conn conns[CONNECTIONS];

process_event_t tcpip_event;
struct uip_ip_hdr *uip_ip_buf;
struct uip_udp_hdr *uip_udp_buf;
void *uip_appdata;
uint16_t uip_len;
struct uip_udp_conn *uip_udp_conn;

void
start_udp_events(void)
{
  tcpip_event = process_alloc_event();
}

struct uip_udp_conn *
udp_new(const uip_ipaddr_t *ripaddr, uint16_t port, void *appstate)
{
  unsigned i = 0;
  while(i < mote_ipv6_settings.connections && conns[i].lport != 0) {
    i++;
  }
  if(i == mote_ipv6_settings.connections) {
    return NULL;
  }
  conns[i] = (struct uip_udp_conn){
    .ripaddr = ripaddr == NULL ? uip_all_zeroes_addr : *ripaddr,
    .lport = UIP_HTONS(free_port()),
    .rport = port,
    .ttl = mote_ipv6_settings.hop_limit,
    .appstate = {PROCESS_CURRENT(), appstate},
  };
  return &conns[i];
}

struct uip_udp_conn *
udp_broadcast_new(uint16_t port, void *appstate)
{
  uip_ipaddr_t all;
  struct uip_udp_conn *conn;
  uip_create_linklocal_allnodes_mcast(&all);
  conn = udp_new(&all, port, appstate);
  if(conn != NULL) {
    udp_bind(conn, port);
  }
  return conn;
}

void
uip_udp_remove(struct uip_udp_conn *conn)
{
  conn->lport = 0;
}

bool
has_event_port(uint16_t port)
{
  unsigned i = 0;
  while(i < CONNECTIONS && conns[i].lport != UIP_HTONS(port)) {
    i++;
  }
  return i < CONNECTIONS;
}

/* A process has ended: its connections end, too. Those of sockets have no process. */
void
remove_conns_of(const struct process *p)
{
  for(unsigned i = 0; i < CONNECTIONS; i++) {
    if(conns[i].lport != 0 && conns[i].appstate.p == p) {
      uip_udp_remove(&conns[i]);
    }
  }
}

/* The connection that takes a packet, or NULL. */
static struct uip_udp_conn *
conn_for(const struct arrival *arrival)
{
  for(unsigned i = 0; i < CONNECTIONS; i++) {
    struct uip_udp_conn *conn = &conns[i];
    if(conn->lport == UIP_HTONS(arrival->to_port) && conn->lport != 0 &&
       (conn->rport == 0 || conn->rport == UIP_HTONS(arrival->from_port)) &&
       (uip_is_addr_unspecified(&conn->ripaddr) || uip_is_addr_mcast(&conn->ripaddr) || uip_ipaddr_cmp(&conn->ripaddr, &arrival->from))) {
      return conn;
    }
  }
  return NULL;
}

/* Calls the socket, or the process, of a packet's connection; false if there is none. */
bool
input_udp_events(const struct packet *packet, size_t at, const struct arrival *arrival)
{
  uint8_t *bytes = (uint8_t *)(uintptr_t)packet->bytes;
  struct uip_udp_conn *conn = conn_for(arrival);
  if(conn == NULL) {
    return false;
  }
  if(conn->appstate.p == NULL) {
    input_socket(arrival, conn->appstate.state);
    return true;
  }
  uip_ip_buf = (struct uip_ip_hdr *)bytes;
  uip_udp_buf = (struct uip_udp_hdr *)(bytes + at);
  uip_udp_conn = conn;
  uip_appdata = bytes + at + UIP_UDPH_LEN;
  uip_len = arrival->length;
  process_post_synch(conn->appstate.p, tcpip_event, conn->appstate.state);
  uip_appdata = NULL;
  uip_len = 0;
  return true;
}

void
uip_udp_packet_sendto(struct uip_udp_conn *c, const void *data, int len, const uip_ipaddr_t *toaddr, uint16_t toport)
{
  if(data != NULL && len > 0) {
    output_udp(UIP_HTONS(c->lport), toaddr, UIP_HTONS(toport), data, (size_t)len, c->ttl);
  }
}

void
uip_udp_packet_send(struct uip_udp_conn *c, const void *data, int len)
{
  uip_udp_packet_sendto(c, data, len, &c->ripaddr, c->rport);
}
