/* Contiki-NG's collective header for networking. */
#ifndef CONTIKI_NET_H
#define CONTIKI_NET_H

#include "contiki.h"
#include "net/ipv6/simple-udp.h"
#include "net/ipv6/tcpip.h"
#include "net/ipv6/udp-socket.h"
#include "net/ipv6/uip-ds6.h"
#include "net/ipv6/uip.h"
#include "net/ipv6/uiplib.h"
#include "net/linkaddr.h"
#include "net/netstack.h"
#include "net/nullnet/nullnet.h"
#include "net/packetbuf.h"
#include "net/routing/routing.h"

#endif
