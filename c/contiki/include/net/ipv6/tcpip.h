/*
 * UDP by events, as in the old Contiki: a process that made a connection receives tcpip_event for what arrives, and asks by the macros
 * below until its activation ends. New programs use simple-udp.h.
 */
#ifndef TCPIP_H_
#define TCPIP_H_

#include "net/ipv6/settings.h"
#include "net/ipv6/uip.h"
#include "sys/process.h"

struct uip_udp_appstate {
  struct process *p;
  void *state;
};

struct uip_udp_conn {
  struct uip_udp_conn *next;
  uip_ipaddr_t ripaddr;  /* :: means any */
  uint16_t lport, rport; /* in the network's order of bytes; rport 0 means any */
  uint8_t ttl;
  struct uip_udp_appstate appstate;
};

/* The header of the packet that arrived last. */
struct uip_ip_hdr {
  uint8_t vtc, tcflow;
  uint16_t flow;
  uint8_t len[2], proto, ttl;
  uip_ip6addr_t srcipaddr, destipaddr;
};

struct uip_udp_hdr {
  uint16_t srcport, destport, udplen, udpchksum;
};

extern process_event_t tcpip_event;
extern struct uip_ip_hdr *uip_ip_buf;
extern struct uip_udp_hdr *uip_udp_buf;
extern void *uip_appdata;
extern uint16_t uip_len;
extern struct uip_udp_conn *uip_udp_conn;

#define UIP_IP_BUF uip_ip_buf
#define UIP_UDP_BUF uip_udp_buf
#define uip_newdata() (uip_appdata != NULL)
#define uip_datalen() uip_len
#define uip_poll() 0

/* A connection with an unused local port; ports are in the network's order. NULL if there are too many. */
struct uip_udp_conn *udp_new(const uip_ipaddr_t *ripaddr, uint16_t port, void *appstate);
struct uip_udp_conn *udp_broadcast_new(uint16_t port, void *appstate);
#define udp_bind(conn, port) ((conn)->lport = (port))
void uip_udp_remove(struct uip_udp_conn *conn);

void uip_udp_packet_send(struct uip_udp_conn *c, const void *data, int len);
void uip_udp_packet_sendto(struct uip_udp_conn *c, const void *data, int len, const uip_ipaddr_t *toaddr, uint16_t toport);

#endif
