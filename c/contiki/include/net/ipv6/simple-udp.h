/* UDP: a connection has a local port, a callback for what arrives, and perhaps a remote address and port. */
#ifndef SIMPLE_UDP_H_
#define SIMPLE_UDP_H_

#include "net/ipv6/settings.h"
#include "net/ipv6/uip.h"
#include "sys/process.h"

struct simple_udp_connection;

/* The bytes are valid until the callback returns. */
typedef void (*simple_udp_callback)(struct simple_udp_connection *c, const uip_ipaddr_t *source_addr, uint16_t source_port,
                                    const uip_ipaddr_t *dest_addr, uint16_t dest_port, const uint8_t *data, uint16_t datalen);

struct simple_udp_connection {
  struct simple_udp_connection *next;
  uip_ipaddr_t remote_addr;
  uint16_t remote_port, local_port;
  simple_udp_callback receive_callback;
  struct process *client_process;
};

/* Registers a connection. remote_addr NULL and remote_port 0 mean any; local_port 0 means one that is unused. Returns 1. The callback runs
 * with the process that registers as the current one, within an activation of the process "TCP/IP stack". */
int simple_udp_register(struct simple_udp_connection *c, uint16_t local_port, uip_ipaddr_t *remote_addr, uint16_t remote_port,
                        simple_udp_callback receive_callback);

/* Each sends a packet at once, and returns 0, also where the packet can't be sent: then a log line says why. A packet without data isn't
 * sent. */
int simple_udp_send(struct simple_udp_connection *c, const void *data, uint16_t datalen);
int simple_udp_sendto(struct simple_udp_connection *c, const void *data, uint16_t datalen, const uip_ipaddr_t *to);
int simple_udp_sendto_port(struct simple_udp_connection *c, const void *data, uint16_t datalen, const uip_ipaddr_t *to, uint16_t to_port);

void simple_udp_init(void);

#endif
