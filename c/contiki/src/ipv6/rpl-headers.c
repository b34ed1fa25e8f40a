/* What RPL adds to packets: upwards the option of RFC 6553 with the sender's rank, downwards the source routing header of RFC 6554. */
#include "stack.h"

#include "rpl.h"

enum { PADN = 1, OPTION = 0x63, OPTION_SIZE = 8, DOWN = 0x80, RANK_ERROR = 0x40, SRH = 3, SRH_SIZE = 8 };

/* Makes room in a packet, or takes it away. */
static bool
insert_bytes(struct packet *packet, size_t at, size_t length)
{
  if(packet->length + length > mote_ipv6_settings.buffer_size) {
    return false;
  }
  memmove(packet->bytes + at + length, packet->bytes + at, packet->length - at);
  memset(packet->bytes + at, 0, length);
  packet->length = (uint16_t)(packet->length + length);
  put16(packet->bytes + 4, (size_t)packet->length - UIP_IPH_LEN);
  return true;
}

/* The option in the hop-by-hop header, or NULL. */
static uint8_t *
find_option(struct packet *packet)
{
  uint8_t *header = packet->bytes + UIP_IPH_LEN;
  size_t length, at = 2;
  if(packet->bytes[6] != UIP_PROTO_HBHO || packet->length < UIP_IPH_LEN + 8) {
    return NULL;
  }
  length = MIN(8 * (size_t)header[1] + 8, (size_t)packet->length - UIP_IPH_LEN);
  while(at + 2 <= length && header[at] != OPTION) {
    at += header[at] == 0 ? 1 : 2 + (size_t)header[at + 1];
  }
  return at + 6 <= length && header[at + 1] >= 4 ? header + at : NULL;
}

/* Adds the option to a packet that goes up, if it has none: in a header of its own, or with padding in the one that there is. */
bool
add_option(struct packet *packet)
{
  uint8_t *header = packet->bytes + UIP_IPH_LEN, *option = header + 2, protocol = packet->bytes[6];
  if(find_option(packet) != NULL) {
    return true;
  }
  if(!insert_bytes(packet, protocol == UIP_PROTO_HBHO ? UIP_IPH_LEN + 2 : UIP_IPH_LEN, OPTION_SIZE)) {
    return false;
  }
  if(protocol == UIP_PROTO_HBHO) {
    header[1]++;
    option[6] = PADN;
  } else {
    packet->bytes[6] = UIP_PROTO_HBHO;
    header[0] = protocol;
  }
  option[0] = OPTION;
  option[1] = 4;
  option[3] = RPL_INSTANCE;
  put16(option + 4, own_rank());
  return true;
}

/* For a packet that goes down: removes a hop-by-hop header that has only the option. Where there are others, the option says so. */
void
remove_option(struct packet *packet)
{
  uint8_t *header = packet->bytes + UIP_IPH_LEN, *option = find_option(packet);
  if(option == header + 2 && header[1] == 0) {
    packet->bytes[6] = header[0];
    memmove(header, header + OPTION_SIZE, (size_t)packet->length - UIP_IPH_LEN - OPTION_SIZE);
    packet->length -= OPTION_SIZE;
    put16(packet->bytes + 4, (size_t)packet->length - UIP_IPH_LEN);
  } else if(option != NULL) {
    option[2] |= DOWN;
  }
}

/* Checks the sender's rank, and sets the mote's own (RFC 6550, section 11.2). False if the packet goes round in a loop. */
bool
update_option(struct packet *packet)
{
  uint8_t *option = find_option(packet);
  uint16_t rank;
  if(option == NULL) {
    return true;
  }
  if(!has_dag() || option[3] != RPL_INSTANCE) {
    return false;
  }
  rank = get16(option + 4);
  if((option[2] & DOWN) != 0 ? rank >= own_rank() : rank <= own_rank()) {
    report_rank_error();
    if((option[2] & RANK_ERROR) != 0) {
      return false;
    }
    option[2] |= RANK_ERROR;
  }
  put16(option + 4, own_rank());
  return true;
}

/* The number of bytes that all addresses of a path have in common: at least the prefix. */
static size_t
common_bytes(const uint8_t *const *path, unsigned hops)
{
  size_t common = ADDRESS_SIZE - 1;
  for(unsigned i = 1; i < hops; i++) {
    size_t same = 0;
    while(same < IID_SIZE && path[i][same] == path[0][same]) {
      same++;
    }
    common = MIN(common, IID_AT + same);
  }
  return common;
}

/* Writes the header of a source route: all hops but the first (section 3). CmprI and CmprE are the same. */
static void
write_source_route(uint8_t *header, const uint8_t *const *path, unsigned hops, size_t common, size_t padding)
{
  size_t size = ADDRESS_SIZE - common;
  header[2] = SRH;
  header[3] = (uint8_t)(hops - 1);
  header[4] = (uint8_t)(common << 4 | common);
  header[5] = (uint8_t)(padding << 4);
  for(unsigned i = 1; i < hops; i++) {
    memcpy(header + SRH_SIZE + (i - 1) * size, path[i] + IID_SIZE - size, size);
  }
}

/* At the root: the packet's destination becomes the first hop, and the other hops are in the header. False if the packet is too long
 * then. */
bool
add_source_route(struct packet *packet)
{
  uip_ipaddr_t destination = get_address(packet->bytes + DST_AT);
  const uint8_t *path[MOST_HOPS];
  uint8_t *header = packet->bytes + UIP_IPH_LEN, protocol = packet->bytes[6];
  unsigned hops = path_to(&destination, path);
  size_t common, length, padding;
  if(hops <= 1) {
    return true;
  }
  common = common_bytes(path, hops);
  length = (hops - 1) * (ADDRESS_SIZE - common);
  padding = (8 - length % 8) % 8;
  length += SRH_SIZE + padding;
  if(!insert_bytes(packet, UIP_IPH_LEN, length)) {
    return false;
  }
  packet->bytes[6] = UIP_PROTO_ROUTING;
  header[0] = protocol;
  header[1] = (uint8_t)(length / 8 - 1);
  write_source_route(header, path, hops, common, padding);
  memcpy(packet->bytes + DST_AT + IID_AT, path[0], IID_SIZE);
  return true;
}

/* A source routing header: the lengths of its addresses, and their number. */
struct route {
  const uint8_t *addresses;
  size_t inner, last, hops;
};

/* False if the header isn't long enough for one address. */
static bool
read_route(const uint8_t *header, struct route *route)
{
  size_t content = 8 * (size_t)header[1], padding = header[5] >> 4;
  route->addresses = header + SRH_SIZE;
  route->inner = ADDRESS_SIZE - (size_t)(header[4] >> 4);
  route->last = ADDRESS_SIZE - (size_t)(header[4] & 15);
  if(content < padding + route->last) {
    return false;
  }
  route->hops = (content - padding - route->last) / route->inner + 1;
  return true;
}

static size_t
hop_size(const struct route *route, size_t hop)
{
  return hop == route->hops - 1 ? route->last : route->inner;
}

/* An address of the route: what it leaves out are the first bytes of the packet's destination. */
static uip_ipaddr_t
hop_address(const struct route *route, size_t hop, const uip_ipaddr_t *destination)
{
  uip_ipaddr_t address = *destination;
  size_t size = hop_size(route, hop);
  memcpy(address.u8 + ADDRESS_SIZE - size, route->addresses + hop * route->inner, size);
  return address;
}

/* Whether the route returns to this mote from another one. */
static bool
is_loop(const struct route *route, const uip_ipaddr_t *destination)
{
  bool was_here = false, has_left = false;
  for(size_t hop = 0; hop < route->hops; hop++) {
    uip_ipaddr_t address = hop_address(route, hop, destination);
    bool is_here = uip_ds6_is_my_addr(&address);
    if(is_here && has_left) {
      return true;
    }
    was_here |= is_here;
    has_left = was_here && !is_here;
  }
  return false;
}

/* Whether a packet may go from hop to hop: not one of a group, or of a link. */
static bool
may_be_routed(const struct packet *packet, const uip_ipaddr_t *next)
{
  uip_ipaddr_t source = get_address(packet->bytes + SRC_AT);
  return packet->bytes[DST_AT] != 0xff && !uip_is_addr_mcast(next) && !uip_is_addr_linklocal(next) && !uip_is_addr_linklocal(&source);
}

/* The packet's next hop, which swaps places with its destination (RFC 6554, section 4.2). Where the packet is dropped, `fault` is the
 * position of what is wrong, of which its sender learns, or 0. */
enum hop
follow_source_route(struct packet *packet, size_t at, size_t *fault)
{
  uint8_t *header = packet->bytes + at;
  uip_ipaddr_t destination = get_address(packet->bytes + DST_AT), next;
  struct route route;
  size_t hop;
  *fault = header[2] != SRH ? at + 2 : at + 3;
  if(header[3] == 0) {
    return HOP_HERE;
  }
  if(header[2] != SRH || !read_route(header, &route) || header[3] > route.hops) {
    return HOP_DROP;
  }
  hop = route.hops - header[3];
  next = hop_address(&route, hop, &destination);
  *fault = is_loop(&route, &destination) ? at + SRH_SIZE : 0;
  if(!may_be_routed(packet, &next) || *fault != 0) {
    return HOP_DROP;
  }
  header[3]--;
  memcpy(packet->bytes + DST_AT, &next, ADDRESS_SIZE);
  memcpy(header + SRH_SIZE + hop * route.inner, destination.u8 + ADDRESS_SIZE - hop_size(&route, hop), hop_size(&route, hop));
  return HOP_ON;
}
