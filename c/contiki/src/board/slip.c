/* Frames on the radio's port, as SLIP (RFC 1055): a byte END before and after each, and two bytes for END and ESC within it. */
#include "firmware.h"

enum { END = 0xc0, ESC = 0xdb, ESC_END = 0xdc, ESC_ESC = 0xdd, MOST = LINE_BYTES, SLIP_ROOM = 2 * MOST + 2 };

_Static_assert((int)SLIP_ROOM <= (int)OUTPUT_ROOM, "a ring has room for the longest frame");

static uint32_t bad_count;

uint32_t
bad_frames(void)
{
  return bad_count;
}

/* The frame that is being taken. */
static size_t length;
static bool is_escaped, is_bad;

/* Gives the radio its memory, once: a program that neither receives nor sends frames has none for it. */
void
radio_open(void)
{
  static bool is_open;
  if(!is_open) {
    uint32_t before = disable_interrupts();
    is_open = true;
    rings_open_radio();
    restore_interrupts(before);
  }
}

/* Ends the frame; returns its length, or 0 if it isn't a good one. */
static size_t
end_frame(void)
{
  size_t whole = is_bad || is_escaped ? 0 : length;
  bad_count += is_bad || is_escaped;
  length = 0;
  is_escaped = is_bad = false;
  return whole;
}

static void
gather(uint8_t *bytes, uint8_t byte)
{
  if(byte == ESC) {
    is_bad |= is_escaped;
    is_escaped = true;
    return;
  }
  if(is_escaped) {
    is_bad |= byte != ESC_END && byte != ESC_ESC;
    byte = byte == ESC_END ? END : ESC;
    is_escaped = false;
  }
  if(length == MOST) {
    is_bad = true;
  } else {
    bytes[length++] = byte;
  }
}

/* Takes the next frame, of at most MOST bytes; 0 if none is whole yet. What is taken of one that isn't whole is that of one that is too
 * long: so none of its bytes need be kept. */
size_t
take_frame_bytes(uint8_t *bytes)
{
  uint8_t byte;
  while(input_has_frame() && input_take_byte(RADIO, &byte) > 0) {
    size_t whole = byte == END ? end_frame() : 0;
    if(whole > 0) {
      return whole;
    }
    if(byte != END) {
      gather(bytes, byte);
    }
  }
  is_bad |= length > 0;
  length = 0;
  return 0;
}

/* Sends a frame of at most MOST bytes. */
void
send_frame(const uint8_t *bytes, size_t count)
{
  uint8_t slip[SLIP_ROOM];
  size_t at = 0;
  radio_open();
  slip[at++] = END;
  for(size_t i = 0; i < count && i < MOST; i++) {
    bool is_special = bytes[i] == END || bytes[i] == ESC;
    if(is_special) {
      slip[at++] = ESC;
    }
    slip[at++] = !is_special ? bytes[i] : bytes[i] == END ? ESC_END : ESC_ESC;
  }
  slip[at++] = END;
  output_put(RADIO, slip, at);
}
