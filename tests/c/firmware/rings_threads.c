/*
 * The rings of a board's ports with two threads, one of which writes while the other one reads, for the thread sanitizer: it finds a byte
 * or a count that is read without an order to its write, whatever the processor does.
 */
#include "firmware.h"

#include "../check.h"

#include <pthread.h>
#include <sched.h>
#include <stdlib.h>

enum { SENT = 5000, MANY = 200 };

const struct board_settings board_settings = {.has_record = true};

uint32_t
disable_interrupts(void)
{
  return 0;
}

void
restore_interrupts(uint32_t before)
{
  (void)before;
}

void
board_pump(enum port port)
{
  (void)port;
}

const uint32_t board_hz = 1;

uint64_t
clock_count(void)
{
  return 0;
}

uint8_t board_heap_start[sizeof(struct report)] __attribute__((aligned(8)));

void *
take_bytes(size_t size)
{
  void *bytes = calloc(1, size);
  if(bytes == NULL) {
    abort();
  }
  return bytes;
}

/* The bytes, of which none ends a line. */
static uint8_t
byte_at(uint32_t i)
{
  return (uint8_t)(i % MANY + '\n' + 1);
}

static void *
receive_all(void *unused)
{
  for(uint32_t i = 0; i < SENT; i++) {
    input_received(CONSOLE, byte_at(i));
    if(i % MANY == 0) {
      sched_yield();
    }
  }
  return unused;
}

static void *
put_all(void *unused)
{
  for(uint32_t i = 0; i < SENT;) {
    uint8_t byte = byte_at(i);
    if(output_left(CONSOLE) > 0) {
      i += output_put(CONSOLE, &byte, 1);
    } else {
      sched_yield();
    }
  }
  return unused;
}

/* Takes inputs until as many were taken or lost as were sent. What is taken has the order of what was sent. */
static bool
takes_inputs(void)
{
  bool are_right = true;
  for(uint32_t taken = 0, at = 0; taken + input_lost(CONSOLE) < SENT;) {
    uint8_t byte;
    if(input_take_byte(CONSOLE, &byte) == 0) {
      sched_yield();
      continue;
    }
    taken++;
    while(at < SENT && byte_at(at) != byte) {
      at++;
    }
    are_right = are_right && at++ < SENT;
  }
  return are_right;
}

static bool
takes_outputs(void)
{
  bool are_right = true;
  for(uint32_t i = 0; i < SENT;) {
    int byte = output_next(CONSOLE);
    if(byte >= 0) {
      are_right = are_right && byte == byte_at(i++);
    } else {
      sched_yield();
    }
  }
  return are_right;
}

static void
check_beside(const char *name, void *(*writer)(void *), bool (*reader)(void))
{
  pthread_t thread;
  if(pthread_create(&thread, NULL, writer, NULL) != 0) {
    abort();
  }
  check(name, reader());
  pthread_join(thread, NULL);
}

int
main(void)
{
  rings_open();
  rings_open_radio();
  check_beside("inputs are taken in their order, or lost and counted", receive_all, takes_inputs);
  check_beside("outputs leave in their order", put_all, takes_outputs);
  check("nothing is left", output_used(CONSOLE) == 0 && !input_is_waiting());
  return conclude();
}
