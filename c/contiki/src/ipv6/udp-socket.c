/* UDP by sockets: udp-socket.h. Each has a connection of udp-events.c without a process. */
#include "net/ipv6/udp-socket.h"

#include "net/ipv6/tcpip.h"
#include "stack.h"

static bool
is_registered(const struct udp_socket *c)
{
  return c != NULL && c->udp_conn != NULL;
}

int
udp_socket_register(struct udp_socket *c, void *ptr, udp_socket_input_callback_t receive_callback)
{
  if(c == NULL) {
    return -1;
  }
  c->ptr = ptr;
  c->input_callback = receive_callback;
  c->p = PROCESS_CURRENT();
  c->udp_conn = udp_new(NULL, 0, c);
  if(c->udp_conn == NULL) {
    return -1;
  }
  c->udp_conn->appstate.p = NULL;
  return 1;
}

int
udp_socket_bind(struct udp_socket *c, uint16_t local_port)
{
  if(!is_registered(c)) {
    return -1;
  }
  udp_bind(c->udp_conn, UIP_HTONS(local_port));
  return 1;
}

int
udp_socket_connect(struct udp_socket *c, uip_ipaddr_t *remote_addr, uint16_t remote_port)
{
  if(!is_registered(c)) {
    return -1;
  }
  if(remote_addr != NULL) {
    c->udp_conn->ripaddr = *remote_addr;
  }
  c->udp_conn->rport = UIP_HTONS(remote_port);
  return 1;
}

int
udp_socket_close(struct udp_socket *c)
{
  if(!is_registered(c)) {
    return -1;
  }
  uip_udp_remove(c->udp_conn);
  c->udp_conn = NULL;
  return 1;
}

int
udp_socket_send(struct udp_socket *c, const void *data, uint16_t datalen)
{
  if(!is_registered(c)) {
    return -1;
  }
  return udp_socket_sendto(c, data, datalen, &c->udp_conn->ripaddr, UIP_HTONS(c->udp_conn->rport));
}

int
udp_socket_sendto(struct udp_socket *c, const void *data, uint16_t datalen, const uip_ipaddr_t *addr, uint16_t port)
{
  if(!is_registered(c)) {
    return -1;
  }
  uip_udp_packet_sendto(c->udp_conn, data, datalen, addr, UIP_HTONS(port));
  return datalen;
}

/* A packet has arrived for a socket. */
void
input_socket(const struct arrival *arrival, void *socket)
{
  struct udp_socket *c = socket;
  if(c->input_callback != NULL) {
    PROCESS_CONTEXT_BEGIN(c->p);
    c->input_callback(c, c->ptr, &arrival->from, arrival->from_port, &arrival->to, arrival->to_port, arrival->data, arrival->length);
    PROCESS_CONTEXT_END(c->p);
  }
}
