/*
 * The settings of uipopt.h for the stack, which is compiled once for all programs. The program's sources, which the linker sees first,
 * define them by their project-conf.h.
 */
#ifndef IPV6_SETTINGS_H_
#define IPV6_SETTINGS_H_

#include <stdint.h>

#include "net/ipv6/uipopt.h"

struct ipv6_settings {
  uint16_t buffer_size, nodes, lifetime_unit, hop_rank_increase;
  uint8_t connections, hop_limit, neighbors, frames;
  uint8_t dio_interval, dio_doublings, dio_redundancy, lifetime, dao_tries, objective;
  uint8_t log_mac, log_6lowpan, log_ipv6, log_udp, log_rpl;
  clock_time_t dis_interval, dao_delay, dao_timeout, probing_interval;
};

#ifdef CONTIKI_MODULE
extern const struct ipv6_settings mote_ipv6_settings;
#else
__attribute__((weak)) const struct ipv6_settings mote_ipv6_settings = {
  .buffer_size = UIP_BUFSIZE,
  .nodes = UIP_SR_LINK_NUM,
  .lifetime_unit = RPL_DEFAULT_LIFETIME_UNIT,
  .hop_rank_increase = RPL_MIN_HOPRANKINC,
  .connections = UIP_UDP_CONNS,
  .hop_limit = UIP_TTL,
  .neighbors = NBR_TABLE_MAX_NEIGHBORS,
  .frames = QUEUEBUF_NUM,
  .dio_interval = RPL_DIO_INTERVAL_MIN,
  .dio_doublings = RPL_DIO_INTERVAL_DOUBLINGS,
  .dio_redundancy = RPL_DIO_REDUNDANCY,
  .lifetime = RPL_DEFAULT_LIFETIME,
  .dao_tries = RPL_DAO_MAX_RETRANSMISSIONS,
  .objective = RPL_OF_OCP,
  .log_mac = LOG_LEVEL_MAC,
  .log_6lowpan = LOG_LEVEL_6LOWPAN,
  .log_ipv6 = LOG_LEVEL_IPV6,
  .log_udp = LOG_LEVEL_TCPIP,
  .log_rpl = LOG_LEVEL_RPL,
  .dis_interval = RPL_DIS_INTERVAL,
  .dao_delay = RPL_DAO_DELAY,
  .dao_timeout = RPL_DAO_RETRANSMISSION_TIMEOUT,
  .probing_interval = RPL_PROBING_INTERVAL,
};
#endif

#endif
