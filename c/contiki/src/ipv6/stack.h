/*
 * What the parts of the IPv6 stack share. A packet is whole and uncompressed, as on the wire of RFC 8200, between all parts but
 * 6LoWPAN, which makes frames of it. From the program down to the radio:
 *
 *   simple-udp.c, udp-socket.c, udp-events.c   what programs call to send and receive
 *   udp.c                UDP                   routing.c        what programs ask of RPL
 *   icmpv6.c             echo, errors          rpl.c            the DODAG: joining, versions, parents
 *   ipv6.c               input, output         rpl-neighbors.c  neighbours, of which one is the parent
 *                                              rpl-objective.c  what a path costs, and the rank
 *   options.c            extension headers     rpl-timers.c     when DIS, DIO and DAO are sent
 *   addresses.c          uip-ds6.h             rpl-messages.c   DIS, DIO, DAO, DAO-ACK as bytes
 *   sicslowpan.c         6LoWPAN, fragments    rpl-headers.c    the RPL option, the source routing header
 *   compress.c, expand.c its headers           uip-sr.c         the root's table of motes
 *   mac.c                frames                tcpip.c          the process
 */
#ifndef STACK_H_
#define STACK_H_

#include "contiki.h"

#include <stdlib.h>

#include "net/ipv6/settings.h"
#include "net/ipv6/uip.h"
#include "net/ipv6/uip-ds6.h"
#include "net/ipv6/uip-sr.h"

#include "../radio.h"

#pragma GCC visibility push(hidden)

enum { MOST_PACKET = 1280, SRC_AT = 8, DST_AT = 24, IID_AT = 8, IID_SIZE = 8, ADDRESS_SIZE = 16, PROTOCOL_IPV6 = 41 };

struct packet {
  uint16_t length;
  uint8_t bytes[MOST_PACKET];
};

/* Memory of the host, of zeros. A network copies the static data of a mote when another one works, so what is large isn't static. */
static inline void *
take_room(size_t count, size_t size)
{
  void *room = calloc(count, size);
  if(room == NULL) {
    abort();
  }
  return room;
}

/* Copies a packet as far as it has bytes. */
static inline void
copy_packet(struct packet *to, const struct packet *from)
{
  to->length = from->length;
  memcpy(to->bytes, from->bytes, from->length);
}

static inline uint16_t
get16(const uint8_t *bytes)
{
  return (uint16_t)(bytes[0] << 8 | bytes[1]);
}

static inline void
put16(uint8_t *bytes, size_t number)
{
  bytes[0] = (uint8_t)(number >> 8);
  bytes[1] = (uint8_t)number;
}

static inline void
put32(uint8_t *bytes, uint32_t number)
{
  put16(bytes, number >> 16);
  put16(bytes + 2, number);
}

static inline uip_ipaddr_t
get_address(const uint8_t *bytes)
{
  uip_ipaddr_t address;
  memcpy(&address, bytes, sizeof address);
  return address;
}

/* The clock, without a call of the mote. */
static inline unsigned long
seconds(void)
{
  return mote_radio_clock() / contiki_clock_second;
}

/* A random number below a bound. */
static inline clock_time_t
random_below(clock_time_t bound)
{
  clock_time_t number = (clock_time_t)random_rand() << 16;
  return (number | random_rand()) % bound;
}

/* addresses.c */
void start_addresses(void);
uip_ipaddr_t link_local_of(const linkaddr_t *link);
linkaddr_t link_of(const uip_ipaddr_t *address);
uip_ipaddr_t with_prefix(const uip_ipaddr_t *prefix, const uint8_t *iid);

/* mac.c. A frame has at most 127 bytes with the 2 of its checksum, which those here don't have. NULL means all motes in reach. */
enum { MOST_FRAME = 125, HEADER_TO_ALL = 15, HEADER_TO_ONE = 21 };
bool has_slots(size_t frames);
bool transmit(const uint8_t *bytes, size_t length, const linkaddr_t *to);
void start_mac(void);
void hear_frame(const uint8_t *frame, size_t length, size_t header);
void work_mac(void);

/* sicslowpan.c: false if the packet is too long, or a frame finds no room. NULL means all motes in reach. */
bool send_packet(const struct packet *packet, const linkaddr_t *next);
void take_6lowpan(const uint8_t *data, size_t length, const linkaddr_t *source, const linkaddr_t *destination);

/* ipv6.c */
void begin_packet(struct packet *packet, uint8_t protocol, const uip_ipaddr_t *destination);
const char *output_packet(struct packet *packet);
void input_packet(struct packet *packet, const linkaddr_t *from);
uint16_t checksum_of(const struct packet *packet, size_t at, uint8_t protocol, const uip_ipaddr_t *destination);

/* options.c: whether a packet may be processed further. */
bool is_extension(uint8_t protocol);
bool are_lengths_right(const struct packet *packet);
bool may_pass_options(const struct packet *packet, size_t at);

/* icmpv6.c */
enum {
  UNREACHABLE = 1,
  TOO_BIG = 2,
  TIME_EXCEEDED = 3,
  PARAMETER_PROBLEM = 4,
  ICMP_RPL = 155,
  NO_ROUTE = 0,
  NO_PORT = 4,
  BAD_FIELD = 0,
  UNKNOWN_HEADER = 1,
  UNKNOWN_OPTION = 2
};
void input_icmp(const struct packet *packet, size_t at, const linkaddr_t *from);
void output_icmp(uint8_t type, uint8_t code, const uint8_t *body, size_t length, const uip_ipaddr_t *destination);
void send_error(uint8_t type, uint8_t code, uint32_t parameter, const struct packet *packet);

/* udp.c */
void input_udp(const struct packet *packet, size_t at);
void output_udp(uint16_t port, const uip_ipaddr_t *to, uint16_t to_port, const void *data, size_t length, uint8_t hop_limit);
uint16_t free_port(void);

/* A packet for a connection: whether there is one. The address and port of its sender, of its receiver, and its bytes. */
struct arrival {
  uip_ipaddr_t from, to;
  uint16_t from_port, to_port, length;
  const uint8_t *data;
};

/* simple-udp.c */
bool input_simple(const struct arrival *arrival);
bool has_simple_port(uint16_t port);

/* udp-events.c: connections of udp_new, and of udp-socket.h. */
void start_udp_events(void);
bool input_udp_events(const struct packet *packet, size_t at, const struct arrival *arrival);
bool has_event_port(uint16_t port);
void remove_conns_of(const struct process *p);

/* udp-socket.c */
void input_socket(const struct arrival *arrival, void *socket);

/* rpl-headers.c */
enum hop { HOP_HERE, HOP_ON, HOP_DROP };
bool add_option(struct packet *packet);
bool add_source_route(struct packet *packet);
void remove_option(struct packet *packet);
bool update_option(struct packet *packet);
enum hop follow_source_route(struct packet *packet, size_t at, size_t *fault);

#pragma GCC visibility pop

extern struct process tcpip_process;

#endif
