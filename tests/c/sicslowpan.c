/*
 * 6LoWPAN on the host, without a mote: random packets are compressed and sent as frames, and must arrive as they were; then frames of
 * random bytes arrive. Linked with addresses.c, compress.c, expand.c and sicslowpan.c, which are compiled with CONTIKI_MODULE as this is.
 */
#include "ipv6/rpl.h"

#include <stdio.h>
#include <stdlib.h>

enum { PACKETS = 40000, RANDOM_FRAMES = 200000, LONGEST = 125 - 15 };

const clock_time_t contiki_clock_second = 128;
const struct ipv6_settings mote_ipv6_settings = {.buffer_size = 1280, .hop_limit = 64};
struct uip_stats uip_stat;
linkaddr_t linkaddr_node_addr = {{0, 2, 0, 2, 0, 2, 0, 2}};
const linkaddr_t linkaddr_null;

static const linkaddr_t receiver = {{0, 3, 0, 3, 0, 3, 0, 3}};
static struct packet arrived;
static unsigned arrivals, frames;
static uint64_t state = 1;

bool
linkaddr_cmp(const linkaddr_t *addr1, const linkaddr_t *addr2)
{
  return memcmp(addr1, addr2, sizeof *addr1) == 0;
}

clock_time_t
mote_radio_clock(void)
{
  return 0;
}

const struct rpl_neighbor *
preferred_parent(void)
{
  return NULL;
}

void
input_packet(struct packet *packet, const linkaddr_t *from)
{
  (void)from;
  arrived = *packet;
  arrivals++;
}

bool
has_slots(size_t slots)
{
  return slots > 0;
}

/* A frame arrives where it was sent to, in a block of its length. */
bool
transmit(const uint8_t *bytes, size_t length, const linkaddr_t *to)
{
  uint8_t *frame = malloc(length);
  memcpy(frame, bytes, length);
  if(length > LONGEST) {
    printf("a frame of %zu bytes\n", length);
    exit(1);
  }
  frames++;
  take_6lowpan(frame, length, &linkaddr_node_addr, to == NULL ? &linkaddr_null : &receiver);
  free(frame);
  return true;
}

static unsigned
draw(unsigned bound)
{
  state = state * 6364136223846793005u + 1442695040888963407u;
  return (unsigned)(state >> 33) % bound;
}

static void
fill(uint8_t *bytes, size_t length)
{
  for(size_t i = 0; i < length; i++) {
    bytes[i] = (uint8_t)draw(256);
  }
}

/* An address of one mote: by its link-layer address, 16 bits or 64 bits, with the link's prefix or that of context 0; or any other one. */
static void
make_unicast(uint8_t *address, const linkaddr_t *link)
{
  static const uint8_t of_short[] = {0, 0, 0, 0xff, 0xfe, 0, 1, 2};
  uip_ipaddr_t near = link_local_of(link);
  unsigned kind = draw(5);
  memcpy(address, &near, ADDRESS_SIZE);
  if(kind == 2) {
    memcpy(address + IID_AT, of_short, sizeof of_short);
  } else if(kind == 3) {
    fill(address + IID_AT, IID_SIZE);
  } else if(kind == 4) {
    fill(address, ADDRESS_SIZE);
    address[0] = 0x20;
  }
  if(kind < 4 && draw(2) == 0) {
    memset(address, 0, IID_AT);
    address[0] = 0xfd;
  }
}

/* A group, of which this many bytes at the end aren't 0. */
static void
make_group(uint8_t *address)
{
  static const unsigned lengths[] = {1, 3, 5, 14};
  unsigned length = lengths[draw(4)];
  memset(address, 0, ADDRESS_SIZE);
  address[0] = 0xff;
  address[1] = draw(2) == 0 ? 2 : 5;
  fill(address + ADDRESS_SIZE - length, length);
}

/* Extension headers: returns the position after them, and that of the field that names the next one. */
static size_t
make_extensions(struct packet *packet, size_t *next_at)
{
  static const uint8_t kinds[] = {UIP_PROTO_HBHO, UIP_PROTO_ROUTING, UIP_PROTO_DESTO};
  size_t at = UIP_IPH_LEN;
  *next_at = 6;
  for(unsigned left = draw(4); left > 0; left--) {
    size_t length = 8 + 8 * (size_t)draw(4);
    packet->bytes[*next_at] = kinds[draw(3)];
    fill(packet->bytes + at, length);
    packet->bytes[at + 1] = (uint8_t)(length / 8 - 1);
    *next_at = at;
    at += length;
  }
  return at;
}

/* UDP's header, with ports of all forms. */
static void
make_udp(uint8_t *udp, size_t length)
{
  unsigned ports = draw(4);
  fill(udp, UIP_UDPH_LEN);
  if(ports == 1 || ports == 3) {
    udp[0] = 0xf0;
    udp[1] = (uint8_t)(ports == 3 ? 0xb0 | (udp[1] & 15) : udp[1]);
  }
  if(ports >= 2) {
    udp[2] = 0xf0;
    udp[3] = (uint8_t)(ports == 3 ? 0xb0 | (udp[3] & 15) : udp[3]);
  }
  put16(udp + 4, length);
}

static void
make_packet(struct packet *packet)
{
  static const uint8_t limits[] = {1, 64, 255, 63};
  size_t next_at, at, content = UIP_UDPH_LEN + draw(draw(3) == 0 ? 1000 : 90);
  memset(packet, 0, sizeof *packet);
  fill(packet->bytes + 1, draw(4) == 0 ? 3 : 0);
  packet->bytes[0] = (uint8_t)(0x60 | (draw(4) == 0 ? draw(16) : 0));
  packet->bytes[7] = limits[draw(4)];
  make_unicast(packet->bytes + SRC_AT, &linkaddr_node_addr);
  if(draw(4) == 0) {
    make_group(packet->bytes + DST_AT);
  } else {
    make_unicast(packet->bytes + DST_AT, &receiver);
  }
  at = make_extensions(packet, &next_at);
  packet->bytes[next_at] = draw(2) == 0 ? UIP_PROTO_UDP : UIP_PROTO_ICMP6;
  fill(packet->bytes + at, content);
  if(packet->bytes[next_at] == UIP_PROTO_UDP) {
    make_udp(packet->bytes + at, content);
  }
  packet->length = (uint16_t)(at + content);
  put16(packet->bytes + 4, packet->length - UIP_IPH_LEN);
}

static bool
arrives(const struct packet *packet)
{
  arrivals = 0;
  return send_packet(packet, packet->bytes[DST_AT] == 0xff ? NULL : &receiver) && arrivals == 1 && arrived.length == packet->length &&
         memcmp(arrived.bytes, packet->bytes, packet->length) == 0;
}

/* Frames of random bytes, most of which begin as one of 6LoWPAN. */
static void
hear_random_frame(void)
{
  static const uint8_t begins[][2] = {{0x60, 0x1f}, {0xc0, 0x23}, {0x41, 0x00}, {0x00, 0xff}};
  const uint8_t *begin = begins[draw(4)];
  size_t length = draw(LONGEST);
  uint8_t *frame = malloc(length);
  fill(frame, length);
  if(length > 2) {
    frame[0] = (uint8_t)(begin[0] | (frame[0] & begin[1]));
    frame[1] = begin[0] == 0xc0 ? frame[1] & 0x7f : frame[1];
  }
  take_6lowpan(frame, length, &receiver, draw(2) == 0 ? &linkaddr_null : &linkaddr_node_addr);
  free(frame);
}

int
main(void)
{
  for(unsigned i = 0; i < PACKETS; i++) {
    struct packet packet;
    make_packet(&packet);
    if(!arrives(&packet)) {
      printf("packet %u, of %u bytes, didn't arrive as it was: %u arrivals, of %u bytes\n", i, packet.length, arrivals, arrived.length);
      return 1;
    }
  }
  for(unsigned i = 0; i < RANDOM_FRAMES; i++) {
    hear_random_frame();
  }
  printf("%d packets in more frames: %s\n", PACKETS, frames > PACKETS ? "yes" : "no");
  return 0;
}
