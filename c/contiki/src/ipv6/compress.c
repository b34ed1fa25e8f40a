/*
 * Compressed headers: RFC 6282. IPHC with traffic class and flow label all or none, context 0 (fd00::/64), and all other modes; the next
 * headers UDP, with its checksum, hop-by-hop, routing and destination options.
 */
#include "iphc.h"

const uint8_t link_prefix[IID_AT] = {0xfe, 0x80}, context_prefix[IID_AT] = {0xfd};

/* A unicast address. Returns its three bits: whether it has context 0, and the mode of its end. */
static unsigned
put_unicast(struct bytes *out, const uint8_t *address, const linkaddr_t *link)
{
  static const uint8_t of_short[] = {0, 0, 0, 0xff, 0xfe, 0};
  bool has_context = memcmp(address, context_prefix, sizeof context_prefix) == 0;
  uint8_t iid[IID_SIZE];
  unsigned bits = has_context ? 4 : 0;
  iid_of(iid, link);
  if(!has_context && memcmp(address, link_prefix, sizeof link_prefix) != 0) {
    put(out, address, ADDRESS_SIZE);
    return 0;
  }
  if(memcmp(address + IID_AT, iid, IID_SIZE) == 0) {
    return bits | 3;
  }
  if(memcmp(address + IID_AT, of_short, sizeof of_short) == 0) {
    put(out, address + 14, 2);
    return bits | 2;
  }
  put(out, address + IID_AT, IID_SIZE);
  return bits | 1;
}

/* Returns the mode of a multicast address. */
static unsigned
put_multicast(struct bytes *out, const uint8_t *address)
{
  unsigned zeros = 2;
  while(zeros < 15 && address[zeros] == 0) {
    zeros++;
  }
  if(zeros == 15 && address[1] == 2) {
    put(out, address + 15, 1);
    return 3;
  }
  if(zeros >= 11) {
    put_byte(out, address[1]);
    put(out, zeros >= 13 ? address + 13 : address + 11, zeros >= 13 ? 3 : 5);
    return zeros >= 13 ? 2 : 1;
  }
  put(out, address, ADDRESS_SIZE);
  return 0;
}

static int
ext_id(uint8_t protocol)
{
  return protocol == UIP_PROTO_HBHO ? 0 : protocol == UIP_PROTO_ROUTING ? 1 : protocol == UIP_PROTO_DESTO ? 3 : -1;
}

/* Ports, and the checksum; the length is left out. */
static void
put_udp(struct bytes *out, const uint8_t *udp)
{
  if((get16(udp) & 0xfff0) == 0xf0b0 && (get16(udp + 2) & 0xfff0) == 0xf0b0) {
    put_byte(out, NHC_UDP | 3);
    put_byte(out, (unsigned)(udp[1] & 15) << 4 | (udp[3] & 15));
  } else if(udp[2] == 0xf0) {
    put_byte(out, NHC_UDP | 1);
    put(out, udp, 2);
    put(out, udp + 3, 1);
  } else if(udp[0] == 0xf0) {
    put_byte(out, NHC_UDP | 2);
    put(out, udp + 1, 3);
  } else {
    put_byte(out, NHC_UDP);
    put(out, udp, 4);
  }
  put(out, udp + 6, 2);
}

/* The headers after that of IPv6, as far as they are compressed. Returns the length of all headers in the packet. */
static size_t
put_next_headers(struct bytes *out, const struct packet *packet)
{
  const uint8_t *bytes = packet->bytes;
  uint8_t protocol = bytes[6];
  size_t at = UIP_IPH_LEN;
  while(ext_id(protocol) >= 0) {
    uint8_t next = bytes[at];
    size_t length = 8 * (size_t)bytes[at + 1] + 8;
    bool is_next = ext_id(next) >= 0 || next == UIP_PROTO_UDP;
    put_byte(out, NHC_EXT | (unsigned)ext_id(protocol) << 1 | is_next);
    if(!is_next) {
      put_byte(out, next);
    }
    put_byte(out, (unsigned)(length - 2));
    put(out, bytes + at + 2, length - 2);
    at += length;
    protocol = next;
    if(!is_next) {
      return at;
    }
  }
  if(protocol == UIP_PROTO_UDP) {
    put_udp(out, bytes + at);
    at += UIP_UDPH_LEN;
  }
  return at;
}

size_t
compress(struct bytes *out, const struct packet *packet, const linkaddr_t *next, bool takes_all)
{
  const uint8_t *bytes = packet->bytes;
  uint8_t *iphc = out->at;
  bool has_flow = (bytes[0] & 15) != 0 || bytes[1] != 0 || bytes[2] != 0 || bytes[3] != 0;
  bool is_next = takes_all && (ext_id(bytes[6]) >= 0 || bytes[6] == UIP_PROTO_UDP);
  unsigned limit = bytes[7] == 1 ? 1 : bytes[7] == 64 ? 2 : bytes[7] == 255 ? 3 : 0, modes;
  put(out, (uint8_t[2]){0}, 2);
  if(has_flow) {
    unsigned traffic = (unsigned)(bytes[0] & 15) << 4 | bytes[1] >> 4;
    put_byte(out, (traffic & 3) << 6 | traffic >> 2);
    put_byte(out, bytes[1] & 15);
    put(out, bytes + 2, 2);
  }
  if(!is_next) {
    put(out, bytes + 6, 1);
  }
  if(limit == 0) {
    put(out, bytes + 7, 1);
  }
  modes = memcmp(bytes + SRC_AT, &uip_all_zeroes_addr, ADDRESS_SIZE) == 0 ? SAC
                                                                          : put_unicast(out, bytes + SRC_AT, &linkaddr_node_addr) << 4;
  modes |= bytes[DST_AT] == 0xff ? M | put_multicast(out, bytes + DST_AT) : put_unicast(out, bytes + DST_AT, next);
  iphc[0] = (uint8_t)(IPHC | (has_flow ? 0 : 0x18) | (is_next ? NH : 0) | limit);
  iphc[1] = (uint8_t)modes;
  return is_next ? put_next_headers(out, packet) : UIP_IPH_LEN;
}
