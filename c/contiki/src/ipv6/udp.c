/* UDP (RFC 768; RFC 8200, section 8.1): packets of all kinds of connections. */
#include "stack.h"

#include "sys/log.h"
#define LOG_MODULE "UDP"
#define LOG_LEVEL mote_ipv6_settings.log_udp

enum { FIRST_FREE_PORT = 4096 };

/* A port that no connection has. */
uint16_t
free_port(void)
{
  static uint16_t last_port = FIRST_FREE_PORT;
  do {
    last_port = last_port == UINT16_MAX ? FIRST_FREE_PORT : last_port + 1;
  } while(has_simple_port(last_port) || has_event_port(last_port));
  return last_port;
}

/* Sends a packet. One without data or receiver isn't sent, as in Contiki-NG. */
void
output_udp(uint16_t port, const uip_ipaddr_t *to, uint16_t to_port, const void *data, size_t length, uint8_t hop_limit)
{
  struct packet packet;
  uint8_t *udp = packet.bytes + UIP_IPH_LEN;
  size_t most = (size_t)mote_ipv6_settings.buffer_size - UIP_IPUDPH_LEN;
  const char *why;
  uint16_t checksum;
  if(length > most) {
    LOG_WARN("%zu bytes aren't sent: a packet has at most %zu\n", length, most);
    return;
  }
  if(data == NULL || length == 0 || to == NULL) {
    return;
  }
  begin_packet(&packet, UIP_PROTO_UDP, to);
  packet.bytes[7] = hop_limit;
  put16(udp, port);
  put16(udp + 2, to_port);
  put16(udp + 4, UIP_UDPH_LEN + length);
  put16(udp + 6, 0);
  memcpy(udp + UIP_UDPH_LEN, data, length);
  packet.length = (uint16_t)(UIP_IPUDPH_LEN + length);
  checksum = checksum_of(&packet, UIP_IPH_LEN, UIP_PROTO_UDP, to);
  put16(udp + 6, checksum == 0 ? 0xffff : checksum);
  uip_stat.udp.sent++;
  why = output_packet(&packet);
  if(why != NULL) {
    LOG_WARN("a packet isn't sent: %s, to ", why);
    LOG_WARN_6ADDR(to);
    LOG_WARN_("\n");
  }
}

/* A packet for this mote: its content goes to the first connection that takes it. */
void
input_udp(const struct packet *packet, size_t at)
{
  const uint8_t *udp = packet->bytes + at;
  struct arrival arrival = {
    .from = get_address(packet->bytes + SRC_AT),
    .to = get_address(packet->bytes + DST_AT),
    .from_port = get16(udp),
    .to_port = get16(udp + 2),
    .length = (uint16_t)(packet->length - at - UIP_UDPH_LEN),
    .data = udp + UIP_UDPH_LEN,
  };
  uip_stat.udp.recv++;
  if(get16(udp + 6) == 0 || checksum_of(packet, at, UIP_PROTO_UDP, &arrival.to) != 0) {
    uip_stat.udp.drop++;
    uip_stat.udp.chkerr++;
    LOG_INFO("a packet is dropped: its checksum is wrong\n");
  } else if(!input_simple(&arrival) && !input_udp_events(packet, at, &arrival)) {
    uip_stat.udp.drop++;
    LOG_INFO("a packet is dropped: no connection has port %u\n", arrival.to_port);
    send_error(UNREACHABLE, NO_PORT, 0, packet);
  }
}
