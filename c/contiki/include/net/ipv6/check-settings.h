/* Refuses settings of a program that the IPv6 stack doesn't have. `contiki` reads this file for a program that has the stack. */
#ifndef CHECK_SETTINGS_H_
#define CHECK_SETTINGS_H_

#if UIP_BUFSIZE < 128 || UIP_BUFSIZE > 1280
#error "UIP_CONF_BUFFER_SIZE: a packet has at most 128 to 1280 bytes"
#endif
#if UIP_UDP_CONNS < 1 || UIP_UDP_CONNS > 10
#error "UIP_CONF_UDP_CONNS: there are 1 to 10 connections"
#endif
#if UIP_TTL < 1 || UIP_TTL > 255
#error "UIP_CONF_TTL: a hop limit is 1 to 255"
#endif
#if NBR_TABLE_MAX_NEIGHBORS < 1 || NBR_TABLE_MAX_NEIGHBORS > 20
#error "NBR_TABLE_CONF_MAX_NEIGHBORS: a mote knows 1 to 20 neighbours"
#endif
#if UIP_SR_LINK_NUM < 0 || UIP_SR_LINK_NUM > 640
#error "UIP_SR_CONF_LINK_NUM, NETSTACK_MAX_ROUTE_ENTRIES, UIP_CONF_MAX_ROUTES: a root knows at most 640 motes"
#endif
#if QUEUEBUF_NUM < 1 || QUEUEBUF_NUM > 16
#error "QUEUEBUF_CONF_NUM: 1 to 16 frames wait"
#endif
#if RPL_DIO_INTERVAL_MIN < 5 || RPL_DIO_INTERVAL_MIN > 20 || RPL_DIO_INTERVAL_DOUBLINGS < 1 || RPL_DIO_INTERVAL_DOUBLINGS > 16
#error "RPL_CONF_DIO_INTERVAL_MIN is 5 to 20, RPL_CONF_DIO_INTERVAL_DOUBLINGS 1 to 16"
#elif((CLOCK_CONF_SECOND << RPL_DIO_INTERVAL_MIN) / 1000) < 2 || \
  ((CLOCK_CONF_SECOND << RPL_DIO_INTERVAL_MIN) / 1000) > (0x7fffffff >> RPL_DIO_INTERVAL_DOUBLINGS)
#error "RPL_CONF_DIO_INTERVAL_MIN, RPL_CONF_DIO_INTERVAL_DOUBLINGS: an interval has 2 to 2147483647 ticks"
#endif
#if RPL_DIO_REDUNDANCY < 0 || RPL_DIO_REDUNDANCY > 255
#error "RPL_CONF_DIO_REDUNDANCY is 0 to 255"
#endif
#if RPL_DEFAULT_LIFETIME < 1 || RPL_DEFAULT_LIFETIME > 255 || RPL_DEFAULT_LIFETIME_UNIT < 1 || RPL_DEFAULT_LIFETIME_UNIT > 65535
#error "RPL_CONF_DEFAULT_LIFETIME is 1 to 255, RPL_CONF_DEFAULT_LIFETIME_UNIT 1 to 65535 seconds"
#endif
#if RPL_MIN_HOPRANKINC < 1 || RPL_MIN_HOPRANKINC > 1024
#error "RPL_CONF_MIN_HOPRANKINC is 1 to 1024"
#endif
#if RPL_DAO_MAX_RETRANSMISSIONS < 1 || RPL_DAO_MAX_RETRANSMISSIONS > 255
#error "RPL_CONF_DAO_MAX_RETRANSMISSIONS is 1 to 255"
#endif
#if RPL_DIS_INTERVAL < 2 || RPL_DAO_DELAY < 2 || RPL_DAO_RETRANSMISSION_TIMEOUT < 1 || RPL_PROBING_INTERVAL < CLOCK_CONF_SECOND
#error "RPL_CONF_DIS_INTERVAL and RPL_CONF_DAO_DELAY are at least 2 ticks, RPL_CONF_PROBING_INTERVAL is at least a second"
#endif
#if RPL_DIS_INTERVAL > 0x7fffffff || RPL_DAO_DELAY > 0x7fffffff || RPL_DAO_RETRANSMISSION_TIMEOUT > 0x7fffffff || \
  RPL_PROBING_INTERVAL > 0x7fffffff
#error "RPL_CONF_DIS_INTERVAL, RPL_CONF_DAO_DELAY, RPL_CONF_DAO_RETRANSMISSION_TIMEOUT, RPL_CONF_PROBING_INTERVAL: at most 2147483647 ticks"
#endif

/* What the stack has, or hasn't: only this value is accepted. */
#if defined(UIP_CONF_TCP) && UIP_CONF_TCP
#error "UIP_CONF_TCP: the stack has no TCP"
#endif
#if defined(UIP_CONF_UDP) && !(UIP_CONF_UDP)
#error "UIP_CONF_UDP: the stack always has UDP"
#endif
#if defined(UIP_CONF_UDP_CHECKSUMS) && !(UIP_CONF_UDP_CHECKSUMS)
#error "UIP_CONF_UDP_CHECKSUMS: each UDP packet has a checksum"
#endif
#if defined(UIP_CONF_ROUTER) && !(UIP_CONF_ROUTER)
#error "UIP_CONF_ROUTER: each mote forwards packets"
#endif
#if(defined(UIP_CONF_IPV6_RPL) && !(UIP_CONF_IPV6_RPL)) || (defined(UIP_CONF_IPV6) && !(UIP_CONF_IPV6))
#error "UIP_CONF_IPV6, UIP_CONF_IPV6_RPL: the stack is IPv6 with RPL"
#endif
#if(defined(UIP_CONF_ND6_SEND_NS) && UIP_CONF_ND6_SEND_NS) || (defined(UIP_CONF_ND6_SEND_NA) && UIP_CONF_ND6_SEND_NA) || \
  (defined(UIP_CONF_ND6_SEND_RA) && UIP_CONF_ND6_SEND_RA) || (defined(UIP_CONF_ND6_SEND_RS) && UIP_CONF_ND6_SEND_RS)
#error "UIP_CONF_ND6_SEND_NS, _NA, _RA, _RS: the stack has no neighbour discovery"
#endif
#if defined(UIP_CONF_DS6_DEFAULT_PREFIX) && UIP_CONF_DS6_DEFAULT_PREFIX != 0xfd00
#error "UIP_CONF_DS6_DEFAULT_PREFIX: the prefix is fd00; a root may set another one by NETSTACK_ROUTING.root_set_prefix"
#endif
#if defined(RPL_CONF_MOP) && RPL_CONF_MOP != 1
#error "RPL_CONF_MOP: RPL is in mode 1, without routes in the motes"
#endif
#if defined(RPL_CONF_WITH_NON_STORING) && !(RPL_CONF_WITH_NON_STORING)
#error "RPL_CONF_WITH_NON_STORING: RPL is in mode 1, without routes in the motes"
#endif
#if defined(RPL_CONF_WITH_STORING) && RPL_CONF_WITH_STORING
#error "RPL_CONF_WITH_STORING: RPL is in mode 1, without routes in the motes"
#endif
#if RPL_OF_OCP != RPL_OCP_OF0 && RPL_OF_OCP != RPL_OCP_MRHOF
#error "RPL_CONF_OF_OCP: the objective function is RPL_OCP_OF0 or RPL_OCP_MRHOF"
#endif
#ifdef RPL_CONF_SUPPORTED_OFS
#error "RPL_CONF_SUPPORTED_OFS: OF0 and MRHOF are supported; the root's RPL_CONF_OF_OCP chooses"
#endif
#if defined(RPL_CONF_WITH_DAO_ACK) && !(RPL_CONF_WITH_DAO_ACK)
#error "RPL_CONF_WITH_DAO_ACK: a mote is reachable once its DAO is acknowledged"
#endif
#if defined(RPL_CONF_WITH_PROBING) && !(RPL_CONF_WITH_PROBING)
#error "RPL_CONF_WITH_PROBING: a silent parent is asked"
#endif
#if defined(RPL_CONF_DEFAULT_LEAF_ONLY) && RPL_CONF_DEFAULT_LEAF_ONLY
#error "RPL_CONF_DEFAULT_LEAF_ONLY: there is no leaf mode"
#endif
#if defined(RPL_CONF_DEFAULT_INSTANCE) && RPL_CONF_DEFAULT_INSTANCE != 0
#error "RPL_CONF_DEFAULT_INSTANCE: the instance is 0"
#endif
#if(defined(RPL_CONF_GROUNDED) && RPL_CONF_GROUNDED) || (defined(RPL_CONF_PREFERENCE) && RPL_CONF_PREFERENCE)
#error "RPL_CONF_GROUNDED, RPL_CONF_PREFERENCE: a DODAG isn't grounded, and has preference 0"
#endif
#if(defined(RPL_CONF_WITH_MC) && RPL_CONF_WITH_MC) || (defined(RPL_CONF_WITH_MULTICAST) && RPL_CONF_WITH_MULTICAST)
#error "RPL_CONF_WITH_MC, RPL_CONF_WITH_MULTICAST: there are no metrics, and no groups beyond a link"
#endif

#endif
