/*
 * Any frames to a mote with the IPv6 stack, which is a root, or has joined or not. An input has the mote's part, and records: a byte for
 * the kind, one for a length, and bytes. What must hold: nothing is read or written beyond a frame or packet, as the sanitizers see, and
 * each frame that is sent has at most 125 bytes. At the end of an input the mote leaves its network, and an hour passes.
 */
#include "../c/ipv6_host.h"

#include "bytes.h"
#include "net/ipv6/simple-udp.h"
#include "net/ipv6/tcpip.h"

enum { HEADER_ONE = 21, NUMBER = 1, MOST_RECORD = 110, PLAIN = 0x41 };

/* The kinds of records: a whole frame; what follows a header to this mote, or to all; a packet's content with its checksum; time; a packet
 * of the program. */
enum { WHOLE, TO_ONE, TO_ALL, CONTENT, TIME, SEND, KINDS };

static struct simple_udp_connection connection;
static size_t heard;
static uint8_t sequence;

static void
sent_frame(const uint8_t *frame, size_t length)
{
  WANT(length > 2 && length <= MOST_FRAME && (frame[1] & 0x30) == 0x20);
}

static void
hear(struct simple_udp_connection *c, const uip_ipaddr_t *sender, uint16_t from, const uip_ipaddr_t *receiver, uint16_t port,
     const uint8_t *data, uint16_t length)
{
  for(unsigned i = 0; i < length; i++) {
    heard += data[i];
  }
  simple_udp_sendto_port(c, data, length, sender, from);
  (void)receiver;
  (void)port;
}

static linkaddr_t
link_of_mote(unsigned mote)
{
  linkaddr_t link;
  for(unsigned i = 0; i < LINKADDR_SIZE; i += 2) {
    link.u8[i] = (uint8_t)(mote >> 8);
    link.u8[i + 1] = (uint8_t)mote;
  }
  return link;
}

/* A frame of mote 2 to 5, by the kind's upper bits. */
static void
deliver_after_header(const uint8_t *bytes, size_t length, unsigned mote, bool to_all)
{
  uint8_t frame[HEADER_ONE + MOST_RECORD + 50] = {0x21, 0xec, ++sequence, 0xcd, 0xab};
  size_t header = to_all ? 15 : HEADER_ONE;
  linkaddr_t sender = link_of_mote(mote), own = link_of_mote(NUMBER);
  if(to_all) {
    memcpy(frame, (uint8_t[]){0x41, 0xe8, sequence, 0xcd, 0xab, 0xff, 0xff}, 7);
  }
  for(unsigned i = 0; i < LINKADDR_SIZE; i++) {
    frame[header - 1 - i] = sender.u8[i];
    if(!to_all) {
      frame[12 - i] = own.u8[i];
    }
  }
  memcpy(frame + header, bytes, length);
  deliver(frame, header + length);
}

/* An ICMPv6 message, or a UDP packet, with the right lengths and checksum. */
static void
deliver_content(const uint8_t *bytes, size_t length, unsigned kind)
{
  static const uip_ipaddr_t group = {{0xff, 2, [15] = 0x1a}};
  unsigned mote = 2 + (kind >> 6);
  linkaddr_t sender = link_of_mote(mote), own = link_of_mote(NUMBER);
  uip_ipaddr_t from = link_local_of(&sender), to = (kind & 0x08) != 0 ? group : link_local_of(&own);
  uint8_t plain[1 + UIP_IPH_LEN + MOST_RECORD] = {PLAIN};
  struct packet packet = {.length = (uint16_t)(UIP_IPH_LEN + length)};
  bool is_udp = (kind & 0x10) != 0;
  size_t sum_at = UIP_IPH_LEN + (is_udp ? 6 : 2);
  if((kind & 0x20) != 0) {
    from.u8[0] = to.u8[0] = 0xfd;
    from.u8[1] = to.u8[1] = 0;
  }
  memcpy(packet.bytes, (uint8_t[]){0x60, 0, 0, 0, 0, (uint8_t)length, is_udp ? UIP_PROTO_UDP : UIP_PROTO_ICMP6, 255}, 8);
  memcpy(packet.bytes + SRC_AT, &from, sizeof from);
  memcpy(packet.bytes + DST_AT, &to, sizeof to);
  memcpy(packet.bytes + UIP_IPH_LEN, bytes, length);
  if(length >= 8) {
    if(is_udp) {
      put16(packet.bytes + UIP_IPH_LEN + 4, length);
    }
    put16(packet.bytes + sum_at, 0);
    put16(packet.bytes + sum_at, checksum_of(&packet, UIP_IPH_LEN, packet.bytes[6], &to));
  }
  memcpy(plain + 1, packet.bytes, packet.length);
  deliver_after_header(plain, 1 + (size_t)packet.length, mote, (kind & 0x08) != 0);
}

static void
send_own(const uint8_t *bytes, size_t length, unsigned kind)
{
  linkaddr_t link = link_of_mote(2 + (kind >> 6));
  uip_ipaddr_t to = link_local_of(&link);
  to.u8[0] = (kind & 0x08) != 0 ? 0xfd : 0xfe;
  to.u8[1] = (kind & 0x08) != 0 ? 0 : 0x80;
  simple_udp_sendto_port(&connection, bytes, (uint16_t)length, &to, 1000);
  run_polls();
}

static void
take_record(unsigned kind, const uint8_t *bytes, size_t length)
{
  switch((kind & 7) % KINDS) {
  case WHOLE:
    deliver(bytes, length);
    break;
  case TO_ONE:
  case TO_ALL:
    deliver_after_header(bytes, length, 2 + (kind >> 6), (kind & 7) % KINDS == TO_ALL);
    break;
  case CONTENT:
    deliver_content(bytes, length, kind);
    break;
  case TIME:
    pass_time(length * (kind >> 3));
    break;
  default:
    send_own(bytes, length, kind);
    break;
  }
}

int
LLVMFuzzerTestOneInput(const uint8_t *data, size_t size)
{
  static bool has_begun;
  begin_input(data, size);
  if(!has_begun) {
    has_begun = true;
    start_mote(NUMBER);
    simple_udp_register(&connection, 1000, NULL, 0, hear);
  }
  random_init(1);
  sequence = 0;
  if(take_byte() % 2 == 0) {
    NETSTACK_ROUTING.root_start();
    run_polls();
  }
  while(has_input()) {
    uint8_t record[MOST_RECORD];
    unsigned kind = take_byte();
    size_t length = take_byte() % MOST_RECORD;
    for(size_t i = 0; i < length; i++) {
      record[i] = take_byte();
    }
    take_record(kind, record, length);
  }
  NETSTACK_ROUTING.leave_network();
  run_polls();
  pass_time(3600 * SECOND);
  return 0;
}
