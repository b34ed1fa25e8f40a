/* IPv6 (RFC 8200): packets in and out, and forwarding by the routes of RPL. */
#include "stack.h"

#include "sys/log.h"
#define LOG_MODULE "IPv6"
#define LOG_LEVEL mote_ipv6_settings.log_ipv6

#include "rpl.h"

struct uip_stats uip_stat;

/* Checksums (section 8.1). */

static uint32_t
add_bytes(uint32_t sum, const uint8_t *bytes, size_t length)
{
  for(size_t i = 0; i < length; i++) {
    sum += i % 2 == 0 ? (uint32_t)bytes[i] << 8 : bytes[i];
  }
  return sum;
}

/* The checksum of the rest of a packet, from `at` on. Where the rest has its checksum, this is 0 if that is right. */
uint16_t
checksum_of(const struct packet *packet, size_t at, uint8_t protocol, const uip_ipaddr_t *destination)
{
  size_t length = packet->length - at;
  uint32_t sum = (uint32_t)length + protocol;
  sum = add_bytes(sum, packet->bytes + SRC_AT, ADDRESS_SIZE);
  sum = add_bytes(sum, destination->u8, ADDRESS_SIZE);
  sum = add_bytes(sum, packet->bytes + at, length);
  while(sum >> 16 != 0) {
    sum = (sum & 0xffff) + (sum >> 16);
  }
  return (uint16_t)~sum;
}

/* Output. */

/* The header of a packet from this mote. Its rest, and its length, follow. */
void
begin_packet(struct packet *packet, uint8_t protocol, const uip_ipaddr_t *destination)
{
  uip_ipaddr_t to = *destination, from;
  uip_ds6_select_src(&from, &to);
  memset(packet->bytes, 0, UIP_IPH_LEN);
  packet->bytes[0] = 0x60;
  packet->bytes[6] = protocol;
  packet->bytes[7] = mote_ipv6_settings.hop_limit;
  memcpy(packet->bytes + SRC_AT, &from, sizeof from);
  memcpy(packet->bytes + DST_AT, &to, sizeof to);
  packet->length = UIP_IPH_LEN;
}

/* Why a packet wasn't sent. */
enum fate { SENT, NO_WAY, NO_ROOM, TOO_LONG };

/* Sends a packet to the mote that its destination names. */
static enum fate
send_near(const struct packet *packet)
{
  uip_ipaddr_t destination = get_address(packet->bytes + DST_AT);
  linkaddr_t next = link_of(&destination);
  if(linkaddr_cmp(&next, &linkaddr_null)) {
    return NO_WAY;
  }
  return send_packet(packet, &next) ? SENT : NO_ROOM;
}

/* Puts a header of this mote around a packet (RFC 2473); false if it is too long then. */
static bool
encapsulate(struct packet *packet)
{
  uip_ipaddr_t destination = get_address(packet->bytes + DST_AT);
  uint16_t length = packet->length;
  if(length + UIP_IPH_LEN > mote_ipv6_settings.buffer_size) {
    return false;
  }
  memmove(packet->bytes + UIP_IPH_LEN, packet->bytes, length);
  begin_packet(packet, PROTOCOL_IPV6, &destination);
  packet->length = (uint16_t)(UIP_IPH_LEN + length);
  put16(packet->bytes + 4, length);
  return true;
}

/* Sends a packet along the path of its mote. A source route is a part of a packet of the root; another mote's packet is put into one (RFC
 * 6554, section 4.1). */
static enum fate
send_down(struct packet *packet, const uip_ipaddr_t *destination)
{
  uip_ipaddr_t source = get_address(packet->bytes + SRC_AT);
  const uint8_t *path[MOST_HOPS];
  unsigned hops = path_to(destination, path);
  remove_option(packet);
  if(hops == 0) {
    /* A DAO-ACK may find none, as the DAO of a mote on its way is yet to come. */
    if(packet->bytes[6] != UIP_PROTO_ICMP6 || packet->bytes[UIP_IPH_LEN] != ICMP_RPL) {
      report_missing_route(destination);
    }
    return NO_WAY;
  }
  if((hops > 1 && !uip_ds6_is_my_addr(&source) && !encapsulate(packet)) || !add_source_route(packet)) {
    return TOO_LONG;
  }
  return send_near(packet);
}

/* Sends a packet that leaves the link: a root along the mote's path, another mote to its parent. */
static enum fate
send_far(struct packet *packet, const uip_ipaddr_t *destination)
{
  const struct rpl_neighbor *parent = preferred_parent();
  if(is_root()) {
    return send_down(packet, destination);
  }
  if(parent == NULL) {
    return NO_WAY;
  }
  if(!add_option(packet)) {
    return TOO_LONG;
  }
  return send_packet(packet, &parent->link) ? SENT : NO_ROOM;
}

/* :: and ::1, which are never on a link (RFC 4291, sections 2.5.2 and 2.5.3). */
static bool
is_for_no_link(const uip_ipaddr_t *address)
{
  uip_ipaddr_t first = *address;
  first.u8[ADDRESS_SIZE - 1] &= 0xfe;
  return uip_is_addr_unspecified(&first);
}

static enum fate
send_on(struct packet *packet)
{
  uip_ipaddr_t destination = get_address(packet->bytes + DST_AT);
  put16(packet->bytes + 4, (size_t)packet->length - UIP_IPH_LEN);
  if(is_for_no_link(&destination)) {
    return NO_WAY;
  }
  if(uip_is_addr_mcast(&destination)) {
    return send_packet(packet, NULL) ? SENT : NO_ROOM;
  }
  return uip_is_addr_linklocal(&destination) ? send_near(packet) : send_far(packet, &destination);
}

/* Sends a packet of this mote; returns NULL, or why it can't. */
const char *
output_packet(struct packet *packet)
{
  static const char *const reasons[] = {NULL, "there is no route", "a frame has no room", "it is too long with RPL's header"};
  enum fate fate = send_on(packet);
  if(fate == SENT) {
    uip_stat.ip.sent++;
  } else {
    uip_stat.ip.drop++;
  }
  return reasons[fate];
}

/* Input. */

static void
drop(uip_stats_t *kind, const char *why)
{
  uip_stat.ip.drop++;
  if(kind != NULL) {
    (*kind)++;
  }
  LOG_INFO("a packet is dropped: %s\n", why);
}

/* Counts a hop down. If it was the last one, the sender receives an error. */
static bool
may_hop(struct packet *packet)
{
  if(packet->bytes[7] > 1) {
    packet->bytes[7]--;
    return true;
  }
  drop(NULL, "its hop limit is reached");
  send_error(TIME_EXCEEDED, 0, 0, packet);
  return false;
}

/* Sends on a packet for another mote. */
static void
forward(struct packet *packet)
{
  uip_ipaddr_t source = get_address(packet->bytes + SRC_AT), destination = get_address(packet->bytes + DST_AT);
  struct packet received;
  enum fate fate;
  if(uip_is_addr_linklocal(&source) || uip_is_addr_linklocal(&destination) || uip_is_addr_mcast(&destination) ||
     is_for_no_link(&destination)) {
    drop(NULL, "it is for another mote of the link");
    return;
  }
  copy_packet(&received, packet);
  if(!may_hop(packet)) {
    return;
  }
  fate = send_on(packet);
  if(fate == SENT) {
    uip_stat.ip.forwarded++;
  } else if(fate == NO_WAY) {
    drop(NULL, "there is no route");
    send_error(UNREACHABLE, NO_ROUTE, 0, &received);
  } else if(fate == TOO_LONG) {
    drop(NULL, "it is too long with RPL's header");
    send_error(TOO_BIG, 0, mote_ipv6_settings.buffer_size - 8u, &received);
  } else {
    drop(NULL, "a frame has no room");
  }
}

/* A packet in a packet that was for this mote. Addresses of a link mean nothing in it: it may have come from far. */
static void
input_inner(const struct packet *packet, size_t at, const linkaddr_t *from)
{
  struct packet inner;
  uip_ipaddr_t source, destination;
  if(packet->length - at < UIP_IPH_LEN) {
    drop(&uip_stat.ip.lblenerr, "a length is wrong");
    return;
  }
  inner.length = (uint16_t)(packet->length - at);
  memcpy(inner.bytes, packet->bytes + at, inner.length);
  source = get_address(inner.bytes + SRC_AT);
  destination = get_address(inner.bytes + DST_AT);
  if(uip_is_addr_linklocal(&source) || uip_is_addr_linklocal(&destination) || uip_is_addr_mcast(&destination)) {
    drop(NULL, "it is of another link");
    return;
  }
  input_packet(&inner, from);
}

/* What is after the extension headers. `next_at` is the position of the field that names it. */
static void
input_content(const struct packet *packet, size_t at, size_t next_at, const linkaddr_t *from)
{
  switch(packet->bytes[next_at]) {
  case UIP_PROTO_ICMP6:
    input_icmp(packet, at, from);
    break;
  case UIP_PROTO_UDP:
    input_udp(packet, at);
    break;
  case PROTOCOL_IPV6:
    input_inner(packet, at, from);
    break;
  case UIP_PROTO_NONE:
    break;
  default:
    drop(&uip_stat.ip.protoerr, "its next header is unknown");
    send_error(PARAMETER_PROBLEM, UNKNOWN_HEADER, (uint32_t)next_at, packet);
    break;
  }
}

/* A routing header. HOP_HERE if the rest of the packet is for this mote. */
static enum hop
input_route(struct packet *packet, size_t at)
{
  size_t fault;
  enum hop hop = follow_source_route(packet, at, &fault);
  if(hop == HOP_DROP) {
    drop(NULL, "its routing header is wrong");
    if(fault > 0) {
      send_error(PARAMETER_PROBLEM, BAD_FIELD, (uint32_t)fault, packet);
    }
  } else if(hop == HOP_ON && may_hop(packet)) {
    if(send_near(packet) == SENT) {
      uip_stat.ip.forwarded++;
    } else {
      drop(NULL, "a frame has no room");
    }
  }
  return hop;
}

/* A packet for this mote: its content is, or a source route leads on. A hop-by-hop header that isn't the first one is unknown. */
static void
input_here(struct packet *packet, const linkaddr_t *from)
{
  size_t at = UIP_IPH_LEN, next_at = 6;
  while(is_extension(packet->bytes[next_at]) && (packet->bytes[next_at] != UIP_PROTO_HBHO || at == UIP_IPH_LEN)) {
    uint8_t protocol = packet->bytes[next_at];
    if(protocol == UIP_PROTO_ROUTING && input_route(packet, at) != HOP_HERE) {
      return;
    }
    if(protocol == UIP_PROTO_DESTO && !may_pass_options(packet, at)) {
      drop(NULL, "it has an unknown option");
      return;
    }
    next_at = at;
    at += 8 * (size_t)packet->bytes[at + 1] + 8;
  }
  input_content(packet, at, next_at, from);
}

/* Options for each hop: only in the first header (section 4.3). */
static bool
may_pass(struct packet *packet)
{
  if(packet->bytes[6] != UIP_PROTO_HBHO) {
    return true;
  }
  if(!may_pass_options(packet, UIP_IPH_LEN)) {
    drop(NULL, "it has an unknown option");
    return false;
  }
  if(!update_option(packet)) {
    drop(NULL, "its RPL option shows a loop, or another network");
    return false;
  }
  return true;
}

/* A packet has arrived. */
void
input_packet(struct packet *packet, const linkaddr_t *from)
{
  uip_ipaddr_t source, destination;
  uip_stat.ip.recv++;
  if(packet->bytes[0] >> 4 != 6) {
    drop(&uip_stat.ip.vhlerr, "its version isn't 6");
    return;
  }
  if(!are_lengths_right(packet)) {
    drop(&uip_stat.ip.lblenerr, "a length is wrong");
    return;
  }
  source = get_address(packet->bytes + SRC_AT);
  destination = get_address(packet->bytes + DST_AT);
  if(uip_is_addr_mcast(&source) || is_for_no_link(&source)) {
    drop(NULL, "its sender isn't a mote");
  } else if(may_pass(packet)) {
    if(uip_ds6_is_my_addr(&destination) || uip_ds6_is_my_maddr(&destination)) {
      input_here(packet, from);
    } else {
      forward(packet);
    }
  }
}
