/*
 * Frames of a board's radio, compiled for this machine: what is sent is received as it is, beside what is no frame. The board is a stand-in
 * whose radio hears itself.
 */
#include "firmware.h"

#include "../check.h"

#include <stdlib.h>

enum { MOST = LINE_BYTES, END = 0xc0, ESC = 0xdb, LONG = 511 /* with both ends a ring is full */, FILLED = 3 };

const struct board_settings board_settings = {.has_record = true};
const uint32_t board_hz = 1;
uint8_t board_heap_start[sizeof(struct report)] __attribute__((aligned(8)));
static bool hears_itself = true;

uint32_t
disable_interrupts(void)
{
  return 0;
}

void
restore_interrupts(uint32_t before)
{
  (void)before;
}

uint64_t
clock_count(void)
{
  return 0;
}

void *
take_bytes(size_t size)
{
  return calloc(1, size);
}

void
board_pump(enum port port)
{
  int byte;
  while((byte = output_next(port)) >= 0) {
    if(port == RADIO && hears_itself) {
      input_received(port, (uint8_t)byte);
    }
  }
}

/* Takes frames until one has bytes, or none is left. */
static size_t
take(uint8_t *bytes)
{
  size_t length = 0;
  while(length == 0 && input_has_frame()) {
    length = take_frame_bytes(bytes);
  }
  return length;
}

static bool
arrives(const uint8_t *sent, size_t length)
{
  uint8_t bytes[2 * MOST];
  return take(bytes) == length && memcmp(bytes, sent, length) == 0 && take(bytes) == 0;
}

/* Frames of each length, of bytes of which many are special. */
static void
check_lengths(void)
{
  static const uint8_t special[] = {END, ESC, 0xdc, 0xdd};
  uint8_t sent[MOST];
  for(size_t length = 1; length <= MOST; length++) {
    for(unsigned kind = 0; kind <= FILLED; kind++) {
      for(size_t i = 0; i < length; i++) {
        sent[i] = kind < 2 ? special[kind] : random_below(2) == 0 ? special[random_below(4)] : (uint8_t)next_random();
      }
      send_frame(sent, length);
      check("a frame arrives as it was sent", arrives(sent, length));
    }
  }
}

static void
receive(const char *bytes, size_t length)
{
  for(size_t i = 0; i < length; i++) {
    input_received(RADIO, (uint8_t)bytes[i]);
  }
}

/* What is no frame is counted, and the frame after it arrives. */
static void
check_bad(const char *what, const char *bytes, size_t length, uint32_t bad)
{
  uint8_t taken[2 * MOST];
  uint32_t before = bad_frames();
  receive(bytes, length);
  check(what, take(taken) == 0 && bad_frames() == before + bad);
  send_frame((const uint8_t *)"after it", 8);
  check("the frame after it arrives", arrives((const uint8_t *)"after it", 8));
}

/* A frame of more bytes than a frame has; the main loop takes them as they come, or all at once. */
static void
check_long(size_t length, bool is_taken_meanwhile)
{
  uint8_t taken[2 * MOST];
  uint32_t before = bad_frames();
  input_received(RADIO, END);
  for(size_t i = 0; i < length; i++) {
    input_received(RADIO, 'x');
    if(is_taken_meanwhile) {
      check("no part of it is a frame", take(taken) == 0);
    }
  }
  input_received(RADIO, END);
  check("a frame that is too long is bad", take(taken) == 0 && bad_frames() == before + 1);
  send_frame((const uint8_t *)"next", 4);
  check("the next one arrives", arrives((const uint8_t *)"next", 4));
}

int
main(void)
{
  radio_open();
  check_lengths();
  check_bad("empty frames aren't counted", "\300\300\300", 3, 0);
  check_bad("an escape of another byte", "a\333b\300", 4, 1);
  check_bad("two escapes", "a\333\333\334\300", 5, 1);
  check_bad("an escape at the end", "a\333\300", 3, 1);
  check_bad("two bad frames", "a\333\300\333\300", 5, 2);
  for(size_t length = MOST + 1; length < LONG; length++) {
    check_long(length, false);
    check_long(length, true);
  }
  hears_itself = false;
  send_frame((const uint8_t *)"unheard", 7);
  check("nothing is left", !input_has_frame() && output_used(RADIO) == 0);
  return conclude();
}
