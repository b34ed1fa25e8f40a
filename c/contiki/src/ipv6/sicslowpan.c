/*
 * 6LoWPAN: packets as frames. Headers are compressed (RFC 6282), and what doesn't fit into a frame is sent in fragments (RFC 4944,
 * section 5.3). A packet with uncompressed headers (RFC 4944, section 5.1) is received, too.
 */
#include "iphc.h"

#include "sys/log.h"
#define LOG_MODULE "6LoWPAN"
#define LOG_LEVEL mote_ipv6_settings.log_6lowpan

enum { IPV6 = 0x41, FRAG_FIRST = 0xc0, FRAG_NEXT = 0xe0, FRAG_MASK = 0xf8, FRAG_FIRST_SIZE = 4, FRAG_NEXT_SIZE = 5 };

/* Sending. */

/* The bytes of a packet in a fragment that isn't the first one. */
static size_t
fragment_size(size_t room)
{
  return (room - FRAG_NEXT_SIZE) / 8 * 8;
}

/* Whether all fragments of a packet, the first of which ends at a position, find a slot: otherwise none is sent. */
static bool
have_slots(const struct packet *packet, size_t end, size_t room, const linkaddr_t *next)
{
  size_t size = fragment_size(room);
  return next == NULL || has_slots(1 + (packet->length - end + size - 1) / size);
}

/* Sends the rest of a packet from a position on, in fragments. */
static bool
send_rest(const struct packet *packet, size_t at, uint16_t tag, size_t room, const linkaddr_t *next)
{
  uint8_t frame[MOST_FRAME];
  bool is_sent = true;
  while(is_sent && at < packet->length) {
    size_t rest = packet->length - at, length = MIN(fragment_size(room), rest);
    put16(frame, (size_t)FRAG_NEXT << 8 | packet->length);
    put16(frame + 2, tag);
    frame[4] = (uint8_t)(at / 8);
    memcpy(frame + FRAG_NEXT_SIZE, packet->bytes + at, length);
    is_sent = transmit(frame, FRAG_NEXT_SIZE + length, next);
    at += length;
  }
  return is_sent;
}

/* Sends a packet with its first headers compressed. False if these have no room in a frame, or a frame has none in the mote. */
static bool
send_compressed(const struct packet *packet, const linkaddr_t *next, bool takes_all, bool *has_room)
{
  static uint16_t last_tag;
  uint8_t frame[FRAG_FIRST_SIZE + MOST_FRAME];
  size_t room = MOST_FRAME - (next == NULL ? HEADER_TO_ALL : HEADER_TO_ONE);
  struct bytes out = {frame + FRAG_FIRST_SIZE, frame + FRAG_FIRST_SIZE + room, false};
  size_t headers = compress(&out, packet, next == NULL ? &linkaddr_null : next, takes_all), written = (size_t)(out.at - frame), end;
  *has_room = !out.failed;
  if(out.failed) {
    return false;
  }
  if(written - FRAG_FIRST_SIZE + packet->length - headers <= room) {
    memcpy(out.at, packet->bytes + headers, packet->length - headers);
    return transmit(frame + FRAG_FIRST_SIZE, written - FRAG_FIRST_SIZE + packet->length - headers, next);
  }
  /* A fragment ends at a multiple of 8 bytes of the packet; the first one has all compressed headers (RFC 6282, section 2). */
  end = written > room ? 0 : (headers + room - written) / 8 * 8;
  *has_room = end >= headers && end > 0;
  if(!*has_room || !have_slots(packet, end, room, next)) {
    return false;
  }
  put16(frame, (size_t)FRAG_FIRST << 8 | packet->length);
  put16(frame + 2, ++last_tag);
  memcpy(out.at, packet->bytes + headers, end - headers);
  return transmit(frame, written + end - headers, next) && send_rest(packet, end, last_tag, room, next);
}

/* A long source route doesn't fit into the first fragment: then only the header of IPv6 is compressed. */
bool
send_packet(const struct packet *packet, const linkaddr_t *next)
{
  bool has_room;
  return send_compressed(packet, next, true, &has_room) || (!has_room && send_compressed(packet, next, false, &has_room));
}

/* Receiving. */

enum { ASSEMBLIES = 2, MOST_AGE = 8, UNIT = 8, UNITS = MOST_PACKET / UNIT };

/* A packet whose fragments arrive, in any order. */
struct assembly {
  linkaddr_t source;
  bool is_for_all;
  uint16_t tag, length; /* of the whole packet; 0 if there is none */
  uint16_t missing;     /* bytes */
  unsigned long begun;
  uint8_t units[UNITS]; /* what has come, of each 8 bytes */
  struct packet packet;
};

enum { MISSING, BEGIN, REST };

/* A fragment. What its bytes in the packet begin with are headers, if it is the first one. */
struct fragment {
  const linkaddr_t *source;
  bool is_for_all;
  uint16_t tag, length; /* of the whole packet */
  size_t begin, headers, end;
  const uint8_t *first, *rest;
};

/* NULL before the first fragment. */
static struct assembly *assemblies;

static void
drop(const char *why)
{
  uip_stat.sicslowpan.drop++;
  LOG_INFO("a frame is dropped: %s\n", why);
}

/* Sets the lengths that the compressed headers left out. */
static void
set_lengths(struct packet *packet, size_t length, size_t udp_at)
{
  packet->length = (uint16_t)length;
  put16(packet->bytes + 4, length - UIP_IPH_LEN);
  if(udp_at > 0) {
    put16(packet->bytes + udp_at + 4, length - udp_at);
  }
}

/* Reads the headers, and sets their length, which is 0 if they aren't compressed. False if they can't be expanded. */
static bool
get_headers(struct bytes *in, struct packet *packet, const linkaddr_t *source, const linkaddr_t *destination, size_t *length,
            size_t *udp_at)
{
  *length = *udp_at = 0;
  if(in->at < in->end && in->at[0] == IPV6) {
    in->at++;
    return true;
  }
  *length = expand(in, packet, source, destination, udp_at);
  return *length > 0;
}

/* Notes that the fragments of a packet didn't all arrive in time. */
static void
forget_old(struct assembly *one)
{
  if(one->length > 0 && seconds() - one->begun > MOST_AGE) {
    one->length = 0;
    drop("fragments of its packet are missing");
  }
}

/* No fragment has come yet. */
static void
begin_assembly(struct assembly *one, const struct fragment *fragment)
{
  memset(one->units, MISSING, sizeof one->units);
  one->source = *fragment->source;
  one->is_for_all = fragment->is_for_all;
  one->tag = fragment->tag;
  one->length = one->missing = fragment->length;
  one->begun = seconds();
}

/* The packet that a fragment belongs to, or NULL if too many are underway. */
static struct assembly *
assembly_for(const struct fragment *fragment)
{
  struct assembly *unused = NULL;
  if(assemblies == NULL) {
    assemblies = take_room(ASSEMBLIES, sizeof *assemblies);
  }
  for(unsigned i = 0; i < ASSEMBLIES; i++) {
    struct assembly *one = &assemblies[i];
    forget_old(one);
    if(one->length == fragment->length && one->tag == fragment->tag && one->is_for_all == fragment->is_for_all &&
       linkaddr_cmp(&one->source, fragment->source)) {
      return one;
    }
    if(one->length == 0) {
      unused = one;
    }
  }
  if(unused == NULL) {
    drop("two packets are joined already");
    return NULL;
  }
  begin_assembly(unused, fragment);
  return unused;
}

/* Whether a fragment has come before, with the same first and last byte. */
static bool
is_repeated(const struct assembly *one, const struct fragment *fragment)
{
  size_t first = fragment->begin / UNIT, after = (fragment->end + UNIT - 1) / UNIT;
  bool is_same = one->units[first] == BEGIN && (fragment->end == one->length || one->units[after] != REST);
  for(size_t i = first + 1; i < after; i++) {
    is_same &= one->units[i] == REST;
  }
  return is_same;
}

/* Whether nothing of a fragment has come before. */
static bool
is_new(const struct assembly *one, const struct fragment *fragment)
{
  bool is_missing = true;
  for(size_t i = fragment->begin / UNIT; i * UNIT < fragment->end; i++) {
    is_missing &= one->units[i] == MISSING;
  }
  return is_missing;
}

/* Puts a fragment into its packet, which goes on when it is whole. One that overlaps others is the first of a new packet (RFC 4944,
 * section 5.3). */
static void
join_fragment(struct assembly *one, const struct fragment *fragment)
{
  size_t at = fragment->begin + fragment->headers;
  if(is_repeated(one, fragment)) {
    return;
  }
  if(!is_new(one, fragment)) {
    drop("a fragment overlaps others");
    begin_assembly(one, fragment);
  }
  memcpy(one->packet.bytes + fragment->begin, fragment->first, fragment->headers);
  memcpy(one->packet.bytes + at, fragment->rest, fragment->end - at);
  memset(one->units + fragment->begin / UNIT, REST, (fragment->end - fragment->begin + UNIT - 1) / UNIT);
  one->units[fragment->begin / UNIT] = BEGIN;
  one->missing = (uint16_t)(one->missing - (fragment->end - fragment->begin));
  if(one->missing == 0) {
    struct packet whole;
    linkaddr_t source = one->source;
    one->packet.length = one->length;
    copy_packet(&whole, &one->packet);
    one->length = 0;
    input_packet(&whole, &source);
  }
}

/* Whether a fragment ends in its packet, at a multiple of 8 bytes or at the packet's end. Only the first one begins where that does. */
static bool
has_right_length(const struct fragment *fragment, bool is_first)
{
  return is_first == (fragment->begin == 0) && fragment->end > fragment->begin && fragment->end <= fragment->length &&
         (fragment->end % UNIT == 0 || fragment->end == fragment->length);
}

static void
take_fragment(struct bytes *in, const linkaddr_t *source, const linkaddr_t *destination)
{
  uint8_t head[FRAG_FIRST_SIZE];
  bool is_first = (in->at[0] & FRAG_MASK) == FRAG_FIRST;
  size_t udp_at = 0;
  struct packet first;
  struct assembly *one;
  struct fragment fragment = {.source = source, .is_for_all = linkaddr_cmp(destination, &linkaddr_null), .first = first.bytes};
  get(in, head, sizeof head);
  fragment.begin = is_first ? 0 : UNIT * (size_t)get_byte(in);
  fragment.length = get16(head) & 0x7ff;
  fragment.tag = get16(head + 2);
  if(in->failed || fragment.length > mote_ipv6_settings.buffer_size || fragment.length < UIP_IPH_LEN) {
    drop("its packet is too long or too short");
    return;
  }
  if(is_first && !get_headers(in, &first, source, destination, &fragment.headers, &udp_at)) {
    drop("its headers can't be expanded");
    return;
  }
  fragment.rest = in->at;
  fragment.end = fragment.begin + fragment.headers + (size_t)(in->end - in->at);
  if(!has_right_length(&fragment, is_first)) {
    drop("the length of a fragment is wrong");
    return;
  }
  if(fragment.headers > 0) {
    set_lengths(&first, fragment.length, udp_at);
  }
  one = assembly_for(&fragment);
  if(one != NULL) {
    join_fragment(one, &fragment);
  }
}

/* A whole packet in a frame. */
static void
take_whole(struct bytes *in, const linkaddr_t *source, const linkaddr_t *destination)
{
  struct packet packet;
  size_t headers, rest, udp_at;
  bool is_right = get_headers(in, &packet, source, destination, &headers, &udp_at);
  rest = (size_t)(in->end - in->at);
  if(!is_right || headers + rest > mote_ipv6_settings.buffer_size || headers + rest < UIP_IPH_LEN) {
    drop("its headers can't be expanded");
    return;
  }
  memcpy(packet.bytes + headers, in->at, rest);
  if(headers == 0) {
    packet.length = (uint16_t)rest;
  } else {
    set_lengths(&packet, headers + rest, udp_at);
  }
  input_packet(&packet, source);
}

/* A frame has arrived: these are its bytes after the header. */
void
take_6lowpan(const uint8_t *data, size_t length, const linkaddr_t *source, const linkaddr_t *destination)
{
  struct bytes in = {(uint8_t *)(uintptr_t)data, (uint8_t *)(uintptr_t)data + length, false};
  if(length == 0) {
    drop("it is empty");
  } else if((in.at[0] & FRAG_MASK) == FRAG_FIRST || (in.at[0] & FRAG_MASK) == FRAG_NEXT) {
    take_fragment(&in, source, destination);
  } else {
    take_whole(&in, source, destination);
  }
}
