/*
 * The headers of a network's frames: data frames of IEEE 802.15.4, as Contiki-NG's framer-802154 writes them. A header has frame control,
 * sequence number, PAN, receiver and sender: a receiver of 8 bytes, or the short address of all. The low byte comes first.
 *
 * Frames are of the version of 2006, for IPv6 of that of 2015: by that one a receiver acknowledges with its address. Both headers have the
 * same fields, and differ in the frame control.
 */
#include "driver.h"
#include "net/packetbuf.h"
#include "radio.h"
#include "sys/node-id.h"

enum {
  DATA = 0x01,    /* a data frame; the low byte of the frame control */
  ASKED = 0x20,   /* an acknowledgement is asked for */
  PENDING = 0x10, /* the sender has more */
  COMPRESSED =
    0x40, /* the sender's PAN is left out; in a frame of 2015 with two long addresses it is anyway, and this would leave out both */
  CONTROL_TO_ALL = 0xc8, /* a short receiver, a long sender; the high byte */
  CONTROL_TO_ONE = 0xcc, /* a long receiver */
  VERSION_2006 = 0x10,
  VERSION_2015 = 0x20,
  RECEIVER_AT = 5, /* after control, sequence number and PAN */
  SHORT_SIZE = 2,
  HEADER_TO_ALL = RECEIVER_AT + SHORT_SIZE + LINKADDR_SIZE,
  HEADER_TO_ONE = RECEIVER_AT + 2 * LINKADDR_SIZE,
  LINK_QUALITY = 105,
  RSSI = -60
};

/* The PAN of all motes, and the number for all PANs and all short addresses. */
static const uint8_t pan[] = {0xcd, 0xab}, all[SHORT_SIZE] = {0xff, 0xff};

/* Addresses: linkaddr.h. */

linkaddr_t linkaddr_node_addr = {{0, 1, 0, 1, 0, 1, 0, 1}};
const linkaddr_t linkaddr_null = {{0}};

void
linkaddr_copy(linkaddr_t *dest, const linkaddr_t *from)
{
  *dest = *from;
}

bool
linkaddr_cmp(const linkaddr_t *addr1, const linkaddr_t *addr2)
{
  return memcmp(addr1, addr2, sizeof *addr1) == 0;
}

void
linkaddr_set_node_addr(linkaddr_t *addr)
{
  linkaddr_node_addr = *addr;
}

/* Headers. */

/* Whether the mote is in a network, and the longest delay of its links. */
static bool has_joined;
static clock_time_t longest_delay;

static bool is_of_2015;

/* The number of the next frame: from 1 on, and 1 again after 255. */
static uint8_t sequence = 1;

/* Attributes of the last frame that arrived. */
static linkaddr_t sender, receiver;
static bool has_come_in;

/* Sets the mote's number in a network: its frames have headers, and its random numbers differ from those of the others. */
void
join_network(uint16_t number, clock_time_t longest)
{
  has_joined = true;
  longest_delay = longest;
  node_id = number;
  random_init(number);
  for(unsigned i = 0; i < LINKADDR_SIZE; i += 2) {
    linkaddr_node_addr.u8[i] = (unsigned char)(number >> 8);
    linkaddr_node_addr.u8[i + 1] = (unsigned char)number;
  }
}

bool
is_in_network(void)
{
  return has_joined;
}

clock_time_t
mote_radio_round_trip(void)
{
  return 2 * longest_delay;
}

void
mote_radio_use_2015(void)
{
  is_of_2015 = true;
}

static void
write_address(uint8_t *bytes, const linkaddr_t *address)
{
  for(unsigned i = 0; i < LINKADDR_SIZE; i++) {
    bytes[i] = address->u8[LINKADDR_SIZE - 1 - i];
  }
}

static void
read_address(linkaddr_t *address, const uint8_t *bytes)
{
  for(unsigned i = 0; i < LINKADDR_SIZE; i++) {
    address->u8[LINKADDR_SIZE - 1 - i] = bytes[i];
  }
}

static bool
is_for_all(const linkaddr_t *address)
{
  return address == NULL || linkaddr_cmp(address, &linkaddr_null);
}

/* The length of the header of a frame for this receiver; NULL means all. */
size_t
header_length(const linkaddr_t *to)
{
  return is_for_all(to) ? HEADER_TO_ALL : HEADER_TO_ONE;
}

/* The low byte of a frame control, and the high one. */
static unsigned
low_control(bool to_all)
{
  return is_of_2015 && !to_all ? DATA : DATA | COMPRESSED;
}

static unsigned
high_control(bool to_all)
{
  return (to_all ? CONTROL_TO_ALL : CONTROL_TO_ONE) | (is_of_2015 ? VERSION_2015 : VERSION_2006);
}

/* Writes the header of the mote's next frame. */
void
write_header(uint8_t *header, const linkaddr_t *to)
{
  bool to_all = is_for_all(to);
  header[0] = (uint8_t)(low_control(to_all) | (to_all ? 0 : ASKED));
  header[1] = (uint8_t)high_control(to_all);
  header[2] = sequence;
  memcpy(header + 3, pan, sizeof pan);
  if(to_all) {
    memcpy(header + RECEIVER_AT, all, sizeof all);
  } else {
    write_address(header + RECEIVER_AT, to);
  }
  write_address(header + header_length(to) - LINKADDR_SIZE, &linkaddr_node_addr);
  sequence = sequence == UINT8_MAX ? 1 : sequence + 1;
}

/* The length of a frame's header; 0 if it has none of the above. Of a frame of 2003 it is that of 2006. */
static size_t
length_of_header(const uint8_t *frame, size_t length)
{
  unsigned low, high, header;
  bool to_all;
  if(length < HEADER_TO_ALL) {
    return 0;
  }
  low = frame[0] & ~(unsigned)(ASKED | PENDING);
  high = is_of_2015 ? frame[1] : frame[1] | VERSION_2006;
  to_all = high == high_control(true);
  header = to_all ? HEADER_TO_ALL : HEADER_TO_ONE;
  return high == high_control(to_all) && low == low_control(to_all) && length >= header ? header : 0;
}

/* Whether a frame with a header is for this mote, or for all. */
static bool
is_for_this_mote(const uint8_t *frame, size_t header)
{
  bool is_of_pan = memcmp(frame + 3, pan, sizeof pan) == 0 || memcmp(frame + 3, all, sizeof all) == 0;
  if(header == HEADER_TO_ALL) {
    return is_of_pan && memcmp(frame + RECEIVER_AT, all, sizeof all) == 0;
  }
  read_address(&receiver, frame + RECEIVER_AT);
  return is_of_pan && linkaddr_cmp(&receiver, &linkaddr_node_addr);
}

/* Reads a frame's sender and receiver, and the length of its header: 0 if it has none. False if the frame is for another mote. */
bool
take_header(const uint8_t *frame, size_t length, size_t *header)
{
  *header = has_joined ? length_of_header(frame, length) : 0;
  has_come_in = true;
  sender = receiver = linkaddr_null;
  if(*header > 0) {
    read_address(&sender, frame + *header - LINKADDR_SIZE);
    return is_for_this_mote(frame, *header);
  }
  return true;
}

/* packetbuf.h */

packetbuf_attr_t
packetbuf_attr(uint8_t type)
{
  if(!has_come_in) {
    return 0;
  }
  return type == PACKETBUF_ATTR_LINK_QUALITY ? LINK_QUALITY : type == PACKETBUF_ATTR_RSSI ? (packetbuf_attr_t)RSSI : 0;
}

const linkaddr_t *
packetbuf_addr(uint8_t type)
{
  return type == PACKETBUF_ADDR_SENDER ? &sender : type == PACKETBUF_ADDR_RECEIVER ? &receiver : &linkaddr_null;
}
