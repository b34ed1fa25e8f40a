/*
 * Expanded headers: RFC 6282. All modes of IPHC, with context 0 (fd00::/64) alone; the next headers UDP, with its checksum, and extension
 * headers. Lengths, which are left out, are set by sicslowpan.c.
 */
#include "iphc.h"

static void
get_unicast(struct bytes *in, uint8_t *address, bool has_context, unsigned mode, const linkaddr_t *link)
{
  if(mode == 0) {
    get(in, address, has_context ? 0 : ADDRESS_SIZE);
    return;
  }
  memcpy(address, has_context ? context_prefix : link_prefix, IID_AT);
  memset(address + IID_AT, 0, IID_SIZE);
  if(mode == 1) {
    get(in, address + IID_AT, IID_SIZE);
  } else if(mode == 2) {
    address[11] = 0xff;
    address[12] = 0xfe;
    get(in, address + 14, 2);
  } else {
    iid_of(address + IID_AT, link);
  }
}

static void
get_multicast(struct bytes *in, uint8_t *address, unsigned mode)
{
  memset(address, 0, ADDRESS_SIZE);
  address[0] = 0xff;
  address[1] = 2;
  if(mode == 0) {
    get(in, address, ADDRESS_SIZE);
  } else if(mode == 3) {
    get(in, address + 15, 1);
  } else {
    address[1] = (uint8_t)get_byte(in);
    get(in, address + (mode == 2 ? 13 : 11), mode == 2 ? 3 : 5);
  }
}

static void
get_flow(struct bytes *in, uint8_t *bytes, unsigned mode)
{
  unsigned first = mode == 3 ? 0 : get_byte(in), traffic = mode == 1 ? first >> 6 : mode == 3 ? 0 : (first & 0x3f) << 2 | first >> 6;
  bytes[0] = (uint8_t)(0x60 | traffic >> 4);
  bytes[1] = (uint8_t)((traffic & 15) << 4);
  if(mode == 0) {
    bytes[1] |= (uint8_t)(get_byte(in) & 15);
    get(in, bytes + 2, 2);
  } else if(mode == 1) {
    bytes[1] |= (uint8_t)(first & 15);
    get(in, bytes + 2, 2);
  }
}

static void
get_udp(struct bytes *in, uint8_t *udp, unsigned nhc)
{
  switch(nhc & 3) {
  case 0:
    get(in, udp, 4);
    break;
  case 1:
    get(in, udp, 2);
    udp[2] = 0xf0;
    get(in, udp + 3, 1);
    break;
  case 2:
    udp[0] = 0xf0;
    get(in, udp + 1, 3);
    break;
  default:
    udp[1] = (uint8_t)get_byte(in);
    udp[3] = 0xb0 | (udp[1] & 15);
    udp[1] = 0xb0 | udp[1] >> 4;
    udp[0] = udp[2] = 0xf0;
    break;
  }
  in->failed |= (nhc & NHC_NO_CHECKSUM) != 0;
  get(in, udp + 6, 2);
}

/* An extension header, of which `next` follows; returns its length in the packet, or 0. Padding at the end may be left out, but for that
 * of a routing header, which isn't an option (section 4.2). */
static size_t
get_extension(struct bytes *in, uint8_t *header, size_t room, unsigned nhc)
{
  uint8_t next = (nhc & NHC_EXT_NH) == 0 ? (uint8_t)get_byte(in) : 0;
  size_t length = get_byte(in) + 2, whole = (length + 7) / 8 * 8;
  if(in->failed || whole > room || ((nhc & NHC_EXT_ID) == NHC_EXT_ROUTING && whole != length)) {
    return 0;
  }
  header[0] = next;
  header[1] = (uint8_t)(whole / 8 - 1);
  get(in, header + 2, length - 2);
  if(whole - length == 1) {
    header[length] = 0;
  } else if(whole > length) {
    memset(header + length, 0, whole - length);
    header[length] = 1;
    header[length + 1] = (uint8_t)(whole - length - 2);
  }
  return in->failed ? 0 : whole;
}

/* The headers after that of IPv6. Sets the position of UDP's header, or 0; returns the length of all headers, or 0. */
static size_t
get_next_headers(struct bytes *in, struct packet *packet, size_t *udp_at)
{
  static const uint8_t protocols[8] = {UIP_PROTO_HBHO, UIP_PROTO_ROUTING, UIP_PROTO_NONE, UIP_PROTO_DESTO,
                                       UIP_PROTO_NONE, UIP_PROTO_NONE,    UIP_PROTO_NONE, UIP_PROTO_NONE};
  uint8_t *next = &packet->bytes[6];
  size_t at = UIP_IPH_LEN;
  for(;;) {
    unsigned nhc = get_byte(in);
    if((nhc & NHC_UDP_MASK) == NHC_UDP && at + UIP_UDPH_LEN <= (size_t)MOST_PACKET) {
      *next = UIP_PROTO_UDP;
      get_udp(in, packet->bytes + at, nhc);
      *udp_at = at;
      return in->failed ? 0 : at + UIP_UDPH_LEN;
    }
    *next = protocols[nhc >> 1 & 7];
    if((nhc & NHC_EXT_MASK) != NHC_EXT || *next == UIP_PROTO_NONE) {
      return 0;
    }
    next = &packet->bytes[at];
    size_t length = get_extension(in, next, (size_t)MOST_PACKET - at, nhc);
    at += length;
    if(length == 0 || (nhc & NHC_EXT_NH) == 0) {
      return length == 0 ? 0 : at;
    }
  }
}

/* Whether the modes of both addresses are known ones, and context 0 the only one that they use (section 3.1). */
static bool
are_modes_known(unsigned modes, unsigned contexts)
{
  bool uses_first = (modes & SAC) != 0 && (modes & SAM) != 0, uses_second = (modes & DAC) != 0;
  return (modes & (M | DAC)) != (M | DAC) && (modes & (M | DAC | DAM)) != DAC && !(uses_first && contexts >> 4 != 0) &&
         !(uses_second && (contexts & 15) != 0);
}

size_t
expand(struct bytes *in, struct packet *packet, const linkaddr_t *source, const linkaddr_t *destination, size_t *udp_at)
{
  static const uint8_t limits[] = {0, 1, 64, 255};
  unsigned first = get_byte(in), second = get_byte(in), mode = second & DAM;
  uint8_t *bytes = packet->bytes;
  if((first & IPHC_MASK) != IPHC || !are_modes_known(second, (second & CID) != 0 ? get_byte(in) : 0)) {
    return 0;
  }
  memset(bytes, 0, UIP_IPUDPH_LEN);
  *udp_at = 0;
  get_flow(in, bytes, first >> 3 & 3);
  if((first & NH) == 0) {
    bytes[6] = (uint8_t)get_byte(in);
  }
  bytes[7] = (first & 3) == 0 ? (uint8_t)get_byte(in) : limits[first & 3];
  get_unicast(in, bytes + SRC_AT, (second & SAC) != 0, second >> 4 & 3, source);
  if((second & M) != 0) {
    get_multicast(in, bytes + DST_AT, mode);
  } else {
    get_unicast(in, bytes + DST_AT, (second & DAC) != 0, mode, destination);
  }
  if(in->failed) {
    return 0;
  }
  return (first & NH) == 0 ? UIP_IPH_LEN : get_next_headers(in, packet, udp_at);
}
