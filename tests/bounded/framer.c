/*
 * The frames' reader and writer of programs in C: all frames of 0 to 24 bytes with each frame control, PAN and receiver that matter, beside
 * the table of docs/contiki.md, 'A network'. Each frame is in memory of its exact length, so the sanitizers see a byte too many.
 */
#include "../../c/contiki/src/framer.c"

#include "../c/check.h"

#include <stdlib.h>

/* What framer.c takes from the rest of the driver. */
uint16_t node_id;
linkaddr_t linkaddr_node_addr;
const linkaddr_t linkaddr_null;

void
random_init(unsigned short seed)
{
  (void)seed;
}

enum { MOTE = 2, LONGEST = 24, SENDER = 77, TO_ALL_BYTES = 15, TO_ONE_BYTES = 21 };

/* What a field has: what is right for this mote, what is right for all, and another value. */
enum field { OWN, EVERY, OTHER, FIELDS };

static unsigned long frames, with_header, delivered;

/* The length of the header that a frame with this control has, or 0. */
static size_t
header_in_table(unsigned low, unsigned high)
{
  bool is_data = (low & 0xcf) == 0x41;
  return !is_data ? 0 : (high & 0xef) == 0xc8 ? TO_ALL_BYTES : (high & 0xef) == 0xcc ? TO_ONE_BYTES : 0;
}

/* Fills in a frame: PAN and receiver, and other bytes that differ from both. */
static void
fill_frame(uint8_t *frame, unsigned control, enum field to_pan, enum field to)
{
  static const uint8_t pans[FIELDS][2] = {{0xcd, 0xab}, {0xff, 0xff}, {0xab, 0xcd}};
  for(unsigned i = 0; i < LONGEST; i++) {
    frame[i] = (uint8_t)(i + 100);
  }
  frame[0] = (uint8_t)control;
  frame[1] = (uint8_t)(control >> 8);
  memcpy(frame + 3, pans[to_pan], 2);
  if(to == EVERY) {
    memset(frame + 5, 0xff, 8);
  }
  for(unsigned i = 0; i < 8 && to == OWN; i++) {
    frame[5 + i] = i % 2 == 0 ? MOTE : 0;
  }
}

/* Reads a frame of this length, and compares header, delivery and sender. */
static bool
is_read_right(const uint8_t *whole, size_t length, enum field to_pan, enum field to)
{
  size_t right = header_in_table(whole[0], whole[1]), header = 99;
  bool is_to_all = right == TO_ALL_BYTES;
  uint8_t *frame = length == 0 ? NULL : malloc(length), sender_bytes[8] = {0};
  if(length > 0) {
    memcpy(frame, whole, length);
  }
  right = right <= length ? right : 0;
  for(unsigned i = 0; i < 8 && right > 0; i++) {
    sender_bytes[i] = whole[right - 1 - i];
  }
  bool is_delivered = right == 0 || (to_pan != OTHER && to == (is_to_all ? EVERY : OWN));
  bool is_right = take_header(frame, length, &header) == is_delivered && header == right &&
                  memcmp(packetbuf_addr(PACKETBUF_ADDR_SENDER), sender_bytes, 8) == 0;
  free(frame);
  frames++;
  with_header += right > 0;
  delivered += right > 0 && is_delivered;
  return is_right;
}

/* All PANs and receivers of frames with this control. A frame without a header has only one. */
static bool
are_read_right(unsigned control, size_t length)
{
  uint8_t frame[LONGEST];
  unsigned fields = header_in_table(control & 0xff, control >> 8) == 0 ? 1 : FIELDS * FIELDS;
  bool are_right = true;
  for(unsigned i = 0; i < fields && are_right; i++) {
    fill_frame(frame, control, i % FIELDS, i / FIELDS);
    are_right = is_read_right(frame, length, i % FIELDS, i / FIELDS);
  }
  return are_right;
}

static void
check_frames(void)
{
  bool are_right = true;
  join_network(MOTE, 1);
  for(unsigned i = 0; i < (LONGEST + 1) * 65536 && are_right; i++) {
    are_right = are_read_right(i % 65536, i / 65536);
  }
  check("all frames", are_right);
  check("frames with headers, and those for this mote", with_header > 1000 && delivered > 100 && delivered < with_header);
}

/* What mote 77 sends to a mote, or to all where that is 0, is read by mote `at` as it should be. The number before it is given. */
static bool
is_sent_right(unsigned to, uint16_t at, uint8_t number)
{
  linkaddr_t address;
  for(unsigned i = 0; i < 8; i++) {
    address.u8[i] = (uint8_t)(i % 2 == 0 ? to >> 8 : to);
  }
  const linkaddr_t *receiver_address = to == 0 ? NULL : &address;
  size_t length = header_length(receiver_address), header = 0;
  uint8_t *frame = malloc(length);
  join_network(SENDER, 1);
  write_header(frame, receiver_address);
  join_network(at, 1);
  bool is_right = length == (to == 0 ? TO_ALL_BYTES : TO_ONE_BYTES) && frame[2] == number &&
                  take_header(frame, length, &header) == (to == 0 || to == at) && header == length &&
                  packetbuf_addr(PACKETBUF_ADDR_SENDER)->u8[7] == SENDER && packetbuf_addr(PACKETBUF_ADDR_SENDER)->u8[6] == 0;
  free(frame);
  return is_right;
}

static void
check_sent_frames(void)
{
  static const uint16_t motes[] = {0, 2, 258, 512, 65535};
  uint8_t number = 1;
  bool are_right = true;
  for(unsigned i = 0; i < 520 * 25 && are_right; i++) {
    are_right = is_sent_right(motes[i % 5], motes[1 + i / 5 % 4], number);
    number = number == 255 ? 1 : number + 1;
  }
  check("frames that are sent", are_right);
}

int
main(void)
{
  size_t header = 99;
  check("outside of a network a frame is passed whole", take_header((const uint8_t *)"\x41\xd8", 2, &header) && header == 0);
  check_frames();
  check_sent_frames();
  printf("%lu frames\n", frames);
  return conclude();
}
