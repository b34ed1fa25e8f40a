/*
 * The settings of the IPv6 stack that a program's project-conf.h, or -D, may change: those of the names in this file. Another name that
 * begins with UIP_CONF_ or RPL_CONF_ is refused, and so is a value that the stack doesn't have (`contiki` asks for CHECK_SETTINGS).
 */
#ifndef UIPOPT_H_
#define UIPOPT_H_

#include "contiki-conf.h"
#include "sys/log-levels.h"

/* The longest packet, with the IPv6 header (RFC 8200, section 5). */
#ifdef UIP_CONF_BUFFER_SIZE
#define UIP_BUFSIZE UIP_CONF_BUFFER_SIZE
#else
#define UIP_BUFSIZE 1280
#endif

/* Connections of udp_new and udp-socket.h. */
#ifdef UIP_CONF_UDP_CONNS
#define UIP_UDP_CONNS UIP_CONF_UDP_CONNS
#else
#define UIP_UDP_CONNS 10
#endif

/* The hop limit of a packet. */
#ifdef UIP_CONF_TTL
#define UIP_TTL UIP_CONF_TTL
#else
#define UIP_TTL 64
#endif

/* The neighbours that a mote knows, and the motes below a root. */
#ifdef NBR_TABLE_CONF_MAX_NEIGHBORS
#define NBR_TABLE_MAX_NEIGHBORS NBR_TABLE_CONF_MAX_NEIGHBORS
#else
#define NBR_TABLE_MAX_NEIGHBORS 16
#endif

#if defined(UIP_SR_CONF_LINK_NUM)
#define UIP_SR_LINK_NUM UIP_SR_CONF_LINK_NUM
#elif defined(NETSTACK_MAX_ROUTE_ENTRIES)
#define UIP_SR_LINK_NUM NETSTACK_MAX_ROUTE_ENTRIES
#elif defined(UIP_CONF_MAX_ROUTES)
#define UIP_SR_LINK_NUM UIP_CONF_MAX_ROUTES
#else
#define UIP_SR_LINK_NUM 640
#endif

/* Frames that wait for their acknowledgement. */
#ifdef QUEUEBUF_CONF_NUM
#define QUEUEBUF_NUM QUEUEBUF_CONF_NUM
#else
#define QUEUEBUF_NUM 16
#endif

/* RPL: the trickle timer of DIOs (its least interval is 2 to this power, in milliseconds), lifetimes, ranks. */
#ifdef RPL_CONF_DIO_INTERVAL_MIN
#define RPL_DIO_INTERVAL_MIN RPL_CONF_DIO_INTERVAL_MIN
#else
#define RPL_DIO_INTERVAL_MIN 12
#endif

#ifdef RPL_CONF_DIO_INTERVAL_DOUBLINGS
#define RPL_DIO_INTERVAL_DOUBLINGS RPL_CONF_DIO_INTERVAL_DOUBLINGS
#else
#define RPL_DIO_INTERVAL_DOUBLINGS 8
#endif

/* 0: a DIO is never suppressed. */
#ifdef RPL_CONF_DIO_REDUNDANCY
#define RPL_DIO_REDUNDANCY RPL_CONF_DIO_REDUNDANCY
#else
#define RPL_DIO_REDUNDANCY 0
#endif

#ifdef RPL_CONF_DEFAULT_LIFETIME_UNIT
#define RPL_DEFAULT_LIFETIME_UNIT RPL_CONF_DEFAULT_LIFETIME_UNIT
#else
#define RPL_DEFAULT_LIFETIME_UNIT 60
#endif

#ifdef RPL_CONF_DEFAULT_LIFETIME
#define RPL_DEFAULT_LIFETIME RPL_CONF_DEFAULT_LIFETIME
#else
#define RPL_DEFAULT_LIFETIME 30
#endif

#ifdef RPL_CONF_MIN_HOPRANKINC
#define RPL_MIN_HOPRANKINC RPL_CONF_MIN_HOPRANKINC
#else
#define RPL_MIN_HOPRANKINC 128
#endif

/* RPL: ticks between a mote's DISs, before and between its DAOs, and without a sign of the parent. */
#ifdef RPL_CONF_DIS_INTERVAL
#define RPL_DIS_INTERVAL RPL_CONF_DIS_INTERVAL
#else
#define RPL_DIS_INTERVAL (30 * CLOCK_CONF_SECOND)
#endif

#ifdef RPL_CONF_DAO_DELAY
#define RPL_DAO_DELAY RPL_CONF_DAO_DELAY
#else
#define RPL_DAO_DELAY (4 * CLOCK_CONF_SECOND)
#endif

#ifdef RPL_CONF_DAO_RETRANSMISSION_TIMEOUT
#define RPL_DAO_RETRANSMISSION_TIMEOUT RPL_CONF_DAO_RETRANSMISSION_TIMEOUT
#else
#define RPL_DAO_RETRANSMISSION_TIMEOUT (5 * CLOCK_CONF_SECOND)
#endif

#ifdef RPL_CONF_DAO_MAX_RETRANSMISSIONS
#define RPL_DAO_MAX_RETRANSMISSIONS RPL_CONF_DAO_MAX_RETRANSMISSIONS
#else
#define RPL_DAO_MAX_RETRANSMISSIONS 5
#endif

#ifdef RPL_CONF_PROBING_INTERVAL
#define RPL_PROBING_INTERVAL RPL_CONF_PROBING_INTERVAL
#else
#define RPL_PROBING_INTERVAL (60 * CLOCK_CONF_SECOND)
#endif

/* Levels of the stack's log lines. Unlike Contiki-NG's they begin with warnings, so that a line says why a packet isn't sent. */
#ifdef LOG_CONF_LEVEL_MAC
#define LOG_LEVEL_MAC LOG_CONF_LEVEL_MAC
#else
#define LOG_LEVEL_MAC LOG_LEVEL_WARN
#endif

#ifdef LOG_CONF_LEVEL_6LOWPAN
#define LOG_LEVEL_6LOWPAN LOG_CONF_LEVEL_6LOWPAN
#else
#define LOG_LEVEL_6LOWPAN LOG_LEVEL_WARN
#endif

#ifdef LOG_CONF_LEVEL_IPV6
#define LOG_LEVEL_IPV6 LOG_CONF_LEVEL_IPV6
#else
#define LOG_LEVEL_IPV6 LOG_LEVEL_WARN
#endif

#ifdef LOG_CONF_LEVEL_TCPIP
#define LOG_LEVEL_TCPIP LOG_CONF_LEVEL_TCPIP
#else
#define LOG_LEVEL_TCPIP LOG_LEVEL_WARN
#endif

#ifdef LOG_CONF_LEVEL_RPL
#define LOG_LEVEL_RPL LOG_CONF_LEVEL_RPL
#else
#define LOG_LEVEL_RPL LOG_LEVEL_WARN
#endif

/* The objective function of a root. */
#define RPL_OCP_OF0 0
#define RPL_OCP_MRHOF 1
#ifdef RPL_CONF_OF_OCP
#define RPL_OF_OCP RPL_CONF_OF_OCP
#else
#define RPL_OF_OCP RPL_OCP_OF0
#endif

#ifdef CHECK_SETTINGS
#include "net/ipv6/check-settings.h"
#endif

#endif
