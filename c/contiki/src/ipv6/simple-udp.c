/* UDP with the calls of simple-udp.h. */
#include "net/ipv6/simple-udp.h"

#include "stack.h"

LIST(connections);

void
simple_udp_init(void)
{
}

bool
has_simple_port(uint16_t port)
{
  const struct simple_udp_connection *c = list_head(connections);
  while(c != NULL && c->local_port != port) {
    c = c->next;
  }
  return c != NULL;
}

int
simple_udp_register(struct simple_udp_connection *c, uint16_t local_port, uip_ipaddr_t *remote_addr, uint16_t remote_port,
                    simple_udp_callback receive_callback)
{
  c->local_port = local_port == 0 ? free_port() : local_port;
  c->remote_port = remote_port;
  c->remote_addr = remote_addr == NULL ? uip_all_zeroes_addr : *remote_addr;
  c->receive_callback = receive_callback;
  c->client_process = PROCESS_CURRENT();
  list_add(connections, c);
  return 1;
}

/* Calls the first connection that takes a packet; false if none does. */
bool
input_simple(const struct arrival *arrival)
{
  struct simple_udp_connection *c = list_head(connections);
  while(c != NULL && !(c->local_port == arrival->to_port && (c->remote_port == 0 || c->remote_port == arrival->from_port) &&
                       (uip_is_addr_unspecified(&c->remote_addr) || uip_ipaddr_cmp(&c->remote_addr, &arrival->from)))) {
    c = c->next;
  }
  if(c != NULL && c->receive_callback != NULL) {
    PROCESS_CONTEXT_BEGIN(c->client_process);
    c->receive_callback(c, &arrival->from, arrival->from_port, &arrival->to, arrival->to_port, arrival->data, arrival->length);
    PROCESS_CONTEXT_END(c->client_process);
  }
  return c != NULL;
}

int
simple_udp_sendto_port(struct simple_udp_connection *c, const void *data, uint16_t datalen, const uip_ipaddr_t *to, uint16_t to_port)
{
  output_udp(c->local_port, to, to_port, data, datalen, mote_ipv6_settings.hop_limit);
  return 0;
}

int
simple_udp_sendto(struct simple_udp_connection *c, const void *data, uint16_t datalen, const uip_ipaddr_t *to)
{
  return simple_udp_sendto_port(c, data, datalen, to, c->remote_port);
}

int
simple_udp_send(struct simple_udp_connection *c, const void *data, uint16_t datalen)
{
  return simple_udp_sendto(c, data, datalen, &c->remote_addr);
}
