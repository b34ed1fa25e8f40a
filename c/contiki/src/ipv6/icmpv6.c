/* ICMPv6 (RFC 4443): echo replies, errors, and the messages of RPL. */
#include "stack.h"

#include "net/packetbuf.h"

#include "sys/log.h"
#define LOG_MODULE "ICMPv6"
#define LOG_LEVEL mote_ipv6_settings.log_ipv6

#include "rpl.h"

enum { FIRST_INFORMATION = 128, ECHO_REQUEST = 128, ECHO_REPLY = 129 };

/* At most this many errors at once, and one a second later on (section 2.4, f). */
enum { MOST_ERRORS = 10 };

static unsigned errors_left = MOST_ERRORS;
static unsigned long last_error;

/* Output. */

/* Sends a message; from an address of the link or of the network, by its destination, where the source is NULL. */
static void
output_from(const uip_ipaddr_t *source, uint8_t type, uint8_t code, const uint8_t *body, size_t length, const uip_ipaddr_t *destination)
{
  struct packet packet;
  uint8_t *icmp = packet.bytes + UIP_IPH_LEN;
  const char *why;
  if(length > (size_t)mote_ipv6_settings.buffer_size - UIP_IPH_LEN - UIP_ICMPH_LEN) {
    return;
  }
  begin_packet(&packet, UIP_PROTO_ICMP6, destination);
  if(source != NULL) {
    memcpy(packet.bytes + SRC_AT, source, ADDRESS_SIZE);
  }
  icmp[0] = type;
  icmp[1] = code;
  put16(icmp + 2, 0);
  memcpy(icmp + UIP_ICMPH_LEN, body, length);
  packet.length = (uint16_t)(UIP_IPH_LEN + UIP_ICMPH_LEN + length);
  put16(icmp + 2, checksum_of(&packet, UIP_IPH_LEN, UIP_PROTO_ICMP6, destination));
  uip_stat.icmp.sent++;
  why = output_packet(&packet);
  if(why != NULL) {
    LOG_INFO("a message isn't sent: %s, to ", why);
    LOG_INFO_6ADDR(destination);
    LOG_INFO_("\n");
  }
}

void
output_icmp(uint8_t type, uint8_t code, const uint8_t *body, size_t length, const uip_ipaddr_t *destination)
{
  output_from(NULL, type, code, body, length, destination);
}

/* Whether a packet has an ICMPv6 error: that causes no other one. */
static bool
has_error(const struct packet *packet)
{
  size_t at = UIP_IPH_LEN;
  uint8_t protocol = packet->bytes[6];
  while(is_extension(protocol)) {
    protocol = packet->bytes[at];
    at += 8 * (size_t)packet->bytes[at + 1] + 8;
  }
  return protocol == UIP_PROTO_ICMP6 && packet->bytes[at] < FIRST_INFORMATION;
}

static bool
may_tell(void)
{
  unsigned long passed = seconds() - last_error;
  errors_left = (unsigned)MIN(errors_left + passed, (unsigned long)MOST_ERRORS);
  last_error = seconds();
  if(errors_left == 0) {
    return false;
  }
  errors_left--;
  return true;
}

/* Tells a packet's sender why it went no further, with as much of it as a packet has room for (sections 2.4 and 3). */
void
send_error(uint8_t type, uint8_t code, uint32_t parameter, const struct packet *packet)
{
  enum { FIELD = 4, RPL_ROOM = 48 };
  uip_ipaddr_t source = get_address(packet->bytes + SRC_AT), destination = get_address(packet->bytes + DST_AT);
  size_t room = (size_t)mote_ipv6_settings.buffer_size - UIP_IPH_LEN - UIP_ICMPH_LEN - FIELD - RPL_ROOM;
  size_t length = MIN((size_t)packet->length, room);
  uint8_t body[FIELD + MOST_PACKET];
  bool may_be_group = type == TOO_BIG || (type == PARAMETER_PROBLEM && code == UNKNOWN_OPTION);
  bool was_for_all = uip_is_addr_mcast(&destination) || linkaddr_cmp(packetbuf_addr(PACKETBUF_ADDR_RECEIVER), &linkaddr_null);
  if(uip_is_addr_unspecified(&source) || uip_is_addr_mcast(&source) || uip_ds6_is_my_addr(&source) || (was_for_all && !may_be_group) ||
     has_error(packet) || !may_tell()) {
    return;
  }
  put32(body, parameter);
  memcpy(body + FIELD, packet->bytes, length);
  output_icmp(type, code, body, FIELD + length, &source);
}

/* Input. */

static void
drop(uip_stats_t *kind, const char *why)
{
  uip_stat.icmp.drop++;
  if(kind != NULL) {
    (*kind)++;
  }
  LOG_INFO("a message is dropped: %s\n", why);
}

static void
input_error(const uint8_t *icmp, const uip_ipaddr_t *source)
{
  LOG_INFO("error %u, code %u, from ", icmp[0], icmp[1]);
  LOG_INFO_6ADDR(source);
  LOG_INFO_("\n");
}

void
input_icmp(const struct packet *packet, size_t at, const linkaddr_t *from)
{
  const uint8_t *icmp = packet->bytes + at;
  uip_ipaddr_t source = get_address(packet->bytes + SRC_AT), destination = get_address(packet->bytes + DST_AT);
  uip_stat.icmp.recv++;
  if(checksum_of(packet, at, UIP_PROTO_ICMP6, &destination) != 0) {
    drop(&uip_stat.icmp.chkerr, "its checksum is wrong");
  } else if(icmp[0] == ECHO_REQUEST && icmp[1] == 0) {
    /* The reply is from the address that was asked (section 4.2). */
    output_from(uip_is_addr_mcast(&destination) ? NULL : &destination, ECHO_REPLY, 0, icmp + UIP_ICMPH_LEN,
                packet->length - at - UIP_ICMPH_LEN, &source);
  } else if(icmp[0] == ICMP_RPL) {
    if(!input_rpl(packet, at, from)) {
      drop(NULL, "it isn't a message of RPL");
    }
  } else if(icmp[0] < FIRST_INFORMATION) {
    input_error(icmp, &source);
  } else {
    drop(&uip_stat.icmp.typeerr, "its type is unknown");
  }
}
