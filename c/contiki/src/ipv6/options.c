/* Extension headers: their lengths, and options that the mote doesn't know (RFC 8200, sections 4.1 to 4.4 and 4.6). */
#include "stack.h"

enum { PAD1 = 0, PADN = 1, RPL_OPTION = 0x63, ACTION = 0xc0, SKIP = 0x00, DISCARD = 0x40, TELL = 0x80 };

bool
is_extension(uint8_t protocol)
{
  return protocol == UIP_PROTO_HBHO || protocol == UIP_PROTO_DESTO || protocol == UIP_PROTO_ROUTING;
}

/* Whether the options of a header end where it does. */
static bool
are_options_right(const uint8_t *header, size_t length)
{
  size_t at = 2;
  while(at < length) {
    if(header[at] == PAD1) {
      at++;
    } else if(at + 2 > length) {
      return false;
    } else {
      at += 2 + (size_t)header[at + 1];
    }
  }
  return at == length;
}

/* Whether the lengths in a packet's headers are right: the other parts rely on it. */
bool
are_lengths_right(const struct packet *packet)
{
  const uint8_t *bytes = packet->bytes;
  uint8_t protocol = bytes[6];
  size_t at = UIP_IPH_LEN, rest;
  if(packet->length < UIP_IPH_LEN || get16(bytes + 4) != packet->length - UIP_IPH_LEN) {
    return false;
  }
  while(is_extension(protocol)) {
    size_t left = packet->length - at, length = left < 8 ? 0 : 8 * (size_t)bytes[at + 1] + 8;
    if(length == 0 || length > left || (protocol != UIP_PROTO_ROUTING && !are_options_right(bytes + at, length))) {
      return false;
    }
    protocol = bytes[at];
    at += length;
  }
  rest = packet->length - at;
  return protocol == UIP_PROTO_UDP     ? rest >= UIP_UDPH_LEN && get16(bytes + at + 4) == rest
         : protocol == UIP_PROTO_ICMP6 ? rest >= UIP_ICMPH_LEN
                                       : true;
}

/* Whether a packet may be processed further, by the options of a header. An option that isn't known says what to do: skip it, or discard
 * the packet, and perhaps tell its sender. */
bool
may_pass_options(const struct packet *packet, size_t at)
{
  const uint8_t *bytes = packet->bytes;
  size_t end = at + 8 * (size_t)bytes[at + 1] + 8;
  at += 2;
  while(at < end) {
    uint8_t option = bytes[at];
    if(option > PADN && option != RPL_OPTION && (option & ACTION) != SKIP) {
      if((option & ACTION) == TELL || ((option & ACTION) == ACTION && bytes[DST_AT] != 0xff)) {
        send_error(PARAMETER_PROBLEM, UNKNOWN_OPTION, (uint32_t)at, packet);
      }
      return false;
    }
    at += option == PAD1 ? 1 : 2 + (size_t)bytes[at + 1];
  }
  return true;
}
