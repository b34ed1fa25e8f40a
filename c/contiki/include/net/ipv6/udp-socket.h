/* UDP by sockets: as simple-udp.h, but bound and connected one after the other, and with a pointer of the program. */
#ifndef UDP_SOCKET_H_
#define UDP_SOCKET_H_

#include "net/ipv6/settings.h"
#include "net/ipv6/uip.h"
#include "sys/process.h"

struct udp_socket;

/* The bytes are valid until the callback returns. */
typedef void (*udp_socket_input_callback_t)(struct udp_socket *c, void *ptr, const uip_ipaddr_t *source_addr, uint16_t source_port,
                                            const uip_ipaddr_t *dest_addr, uint16_t dest_port, const uint8_t *data, uint16_t datalen);

struct udp_socket {
  udp_socket_input_callback_t input_callback;
  void *ptr;
  struct process *p;
  struct uip_udp_conn *udp_conn; /* NULL if it isn't registered */
};

/* Registers a socket with an unused local port. Each returns 1, or -1 if it can't: the socket is NULL or isn't registered, or all
 * connections are used (UIP_CONF_UDP_CONNS). The callback runs as that of simple-udp.h. */
int udp_socket_register(struct udp_socket *c, void *ptr, udp_socket_input_callback_t receive_callback);
int udp_socket_bind(struct udp_socket *c, uint16_t local_port);
int udp_socket_connect(struct udp_socket *c, uip_ipaddr_t *remote_addr, uint16_t remote_port);
int udp_socket_close(struct udp_socket *c);

/* Each sends a packet, and returns the number of bytes, or -1. */
int udp_socket_send(struct udp_socket *c, const void *data, uint16_t datalen);
int udp_socket_sendto(struct udp_socket *c, const void *data, uint16_t datalen, const uip_ipaddr_t *addr, uint16_t port);

#endif
