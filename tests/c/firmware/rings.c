/*
 * The rings of a board, compiled for this machine: one alone at each size, position and filling, and those of the ports beside plain
 * queues. The board is a stand-in, whose ports take as many bytes as they are told.
 */
#include "firmware.h"
#include "ring.h"

#include "../check.h"

#include <stdlib.h>
#include <sys/wait.h>
#include <unistd.h>

enum { MOST_ALL = 64, MOST_ROOM = 1024, INPUT_ROOM = 512, LONG_LINE = 256, LINE_ROOM = 200, TEXT_ROOM = 40 };

/* A check at which the test ends if it doesn't hold: what follows would be full of faults. */
static void
must(const char *name, bool holds)
{
  check(name, holds);
  if(!holds) {
    exit(conclude());
  }
}

/* The stand-in. */

const struct board_settings board_settings = {.has_record = true};
static uint32_t interrupts_are_off;
static size_t port_takes; /* of the bytes at one call of board_pump */
static uint64_t now;      /* the clock, which goes on at each call of board_pump */
static uint64_t latest = UINT64_MAX;
const uint32_t board_hz = 1000;
enum { PUMP = 10, SECOND = 1000 };

uint32_t
disable_interrupts(void)
{
  uint32_t before = interrupts_are_off;
  interrupts_are_off = 1;
  return before;
}

void
restore_interrupts(uint32_t before)
{
  interrupts_are_off = before;
}

uint64_t
clock_count(void)
{
  return now;
}

/* The mote's memory, which nothing reads after a fault. */
uint8_t board_heap_start[sizeof(struct report)] __attribute__((aligned(8)));

void *
take_bytes(size_t size)
{
  void *bytes = calloc(1, size);
  must("there is memory", bytes != NULL);
  return bytes;
}

/* What a ring must be. */

struct queue {
  uint8_t bytes[MOST_ROOM];
  size_t length, room, lost;
};

static void
push(struct queue *queue, uint8_t byte)
{
  queue->bytes[queue->length++] = byte;
}

static int
pop(struct queue *queue)
{
  int byte = queue->length == 0 ? -1 : queue->bytes[0];
  if(byte >= 0) {
    memmove(queue->bytes, queue->bytes + 1, --queue->length);
  }
  return byte;
}

static struct queue inputs[RECORD];
static struct queue outputs[PORTS] = {{.room = OUTPUT_ROOM}, {.room = OUTPUT_ROOM}, {.room = OUTPUT_ROOM}};
static const uint8_t end_of[RECORD] = {'\n', 0xc0};

/* Which ports were waited for, and have taken nothing since. */
static bool is_given_up[PORTS];

/* The bytes of a call of output_put, until they are in the ring. */
static const uint8_t *coming;
static size_t coming_length;

static void
note_put(enum port port)
{
  if(coming_length > 0 && output_used(port) == outputs[port].length + coming_length) {
    while(coming_length > 0) {
      push(&outputs[port], *coming++);
      coming_length--;
    }
  }
}

void
board_pump(enum port port)
{
  must("bytes leave while interrupts are off", interrupts_are_off != 0);
  note_put(port);
  now += PUMP;
  must("a port isn't waited for without end", now <= latest);
  for(size_t i = 0; i < port_takes; i++) {
    int byte = output_next(port);
    must("the next byte leaves", byte == pop(&outputs[port]));
    is_given_up[port] &= byte < 0;
  }
}

/* One ring. */

static uint8_t
byte_at(uint32_t i)
{
  return (uint8_t)(i * 167 + i / 256 * 91);
}

/* Whether a ring that begins with this count holds so many bytes: all are taken in their order, and a byte more is refused if it's full. */
static bool
holds_bytes(struct ring *ring, uint32_t start, uint32_t count)
{
  bool holds;
  atomic_store(&ring->put, start);
  atomic_store(&ring->taken, start);
  holds = ring_take(ring) == -1;
  for(uint32_t i = 0; i < count; i++) {
    holds = holds && ring_used(ring) == i && ring_put(ring, byte_at(i));
  }
  holds = holds && (count < ring->room || !ring_put(ring, 1)) && ring_used(ring) == count;
  for(uint32_t i = 0; i < count; i++) {
    holds = holds && ring_take(ring) == byte_at(i) && ring_used(ring) == count - i - 1;
  }
  return holds && ring_take(ring) == -1 && ring_used(ring) == 0;
}

static void
check_size(uint32_t room)
{
  struct ring ring = {.bytes = malloc(room), .room = room};
  /* From the last counts before 2^32, over 0, to those of a second time around. */
  for(uint32_t start = 0 - 2 * room; start != 2 * room + 1; start++) {
    for(uint32_t count = room <= MOST_ALL ? 0 : room; count <= room; count++) {
      must("a ring has its bytes in their order", holds_bytes(&ring, start, count));
    }
  }
  free(ring.bytes);
}

/* The inputs. */

static size_t
count_ends(enum port port)
{
  size_t count = 0;
  for(size_t i = 0; i < inputs[port].length; i++) {
    count += inputs[port].bytes[i] == end_of[port];
  }
  return count;
}

static bool
must_wait_for_main_loop(enum port port)
{
  return count_ends(port) > 0 || inputs[port].length >= LONG_LINE;
}

/* Of a frame that lost a byte only the end is put, after the byte ESC, once there is room for both. */
static void
receive(enum port port, uint8_t byte)
{
  static bool has_gap;
  bool is_in_gap = port == RADIO && has_gap;
  size_t left = inputs[port].room - inputs[port].length;
  if(left < (is_in_gap ? 2 : 1) || (is_in_gap && byte != 0xc0)) {
    inputs[port].lost++;
    has_gap |= port == RADIO;
    has_gap &= inputs[port].room > 0 || byte != 0xc0; /* where the radio isn't open a gap ends with its frame */
  } else {
    if(is_in_gap) {
      push(&inputs[port], 0xdb);
      has_gap = false;
    }
    push(&inputs[port], byte);
  }
  input_received(port, byte);
}

static void
take_byte(enum port port)
{
  uint8_t byte = 0;
  int next = pop(&inputs[port]);
  size_t count = input_take_byte(port, &byte);
  must("the next byte is taken", next < 0 ? count == 0 : count == 1 && byte == next);
}

static void
take_line(size_t room)
{
  uint8_t line[LINE_ROOM], wanted[LINE_ROOM];
  size_t length = 0;
  if(must_wait_for_main_loop(CONSOLE)) {
    for(bool has_ended = false; !has_ended && length < room && inputs[CONSOLE].length > 0; length++) {
      wanted[length] = (uint8_t)pop(&inputs[CONSOLE]);
      has_ended = wanted[length] == '\n';
    }
  }
  must("a line is taken once it's whole", input_take_line(line, room) == length && memcmp(line, wanted, length) == 0);
}

static void
check_inputs(void)
{
  bool console = must_wait_for_main_loop(CONSOLE), radio = must_wait_for_main_loop(RADIO);
  must("a frame is waiting", input_has_frame() == radio);
  must("an input is waiting", input_is_waiting() == (console || radio));
  must("lost inputs are counted", input_lost(CONSOLE) == inputs[CONSOLE].lost && input_lost(RADIO) == inputs[RADIO].lost);
}

/* At each position an input has room for 512 bytes, and for no other. */
static void
fill_inputs(void)
{
  for(uint32_t i = 0; i < 2 * INPUT_ROOM + 3; i++) {
    for(enum port port = CONSOLE; port < RECORD; port++) {
      while(inputs[port].length < INPUT_ROOM) {
        receive(port, byte_at(i + (uint32_t)inputs[port].length));
      }
      check_inputs();
      receive(port, end_of[port]);
      check_inputs();
      while(inputs[port].length > 0) {
        take_byte(port);
      }
      take_byte(port);
      check_inputs();
      receive(port, end_of[port]); /* one byte, or two after a gap: so each position is once the first one */
      while(inputs[port].length > 0) {
        take_byte(port);
      }
      if(port == RADIO) {
        receive(port, 'x');
        take_byte(port);
      }
    }
  }
}

/* The inputs are full for a time, and then almost empty. */
static void
use_inputs(unsigned long calls)
{
  for(unsigned long i = 0; i < calls; i++) {
    enum port port = random_below(2) == 0 ? CONSOLE : RADIO;
    bool are_filled = i / 4096 % 2 == 0;
    if(random_below(8) < (are_filled ? 7 : 3)) {
      receive(port, random_below(i / 8192 % 2 == 0 ? 600 : 30) == 0 ? end_of[port] : (uint8_t)next_random());
    } else if(port == RADIO || random_below(2) == 0) {
      take_byte(port);
    } else {
      take_line(1 + random_below(LINE_ROOM));
    }
    check_inputs();
  }
}

/* The outputs. */

/* A port that takes bytes is waited for, but for one that was given up. */
static void
put(enum port port, size_t length)
{
  uint8_t bytes[MOST_ROOM + 1];
  bool has_room = length <= outputs[port].room - outputs[port].length;
  bool is_put = has_room || (length <= outputs[port].room && port_takes > 0 && !is_given_up[port]);
  uint64_t before = now;
  for(size_t i = 0; i < length; i++) {
    bytes[i] = (uint8_t)next_random();
  }
  outputs[port].lost += is_put ? 0 : length;
  coming = bytes;
  coming_length = length;
  must("all bytes are put, or none", output_put(port, bytes, length) == is_put && coming_length == (is_put ? 0 : length));
  must("where there is room nothing is waited for", !has_room || now == before + PUMP);
  coming_length = 0;
  is_given_up[port] |= !is_put;
}

static void
check_outputs(void)
{
  for(enum port port = CONSOLE; port < PORTS; port++) {
    const struct queue *queue = &outputs[port];
    must("bytes wait", output_used(port) == queue->length && output_is_left(port) == (queue->length > 0));
    must("there is room", output_left(port) == queue->room - queue->length);
    must("bytes that aren't put are counted", output_lost(port) == queue->lost);
  }
}

/* At each position an output takes as many bytes as it has room for, and of a port that takes nothing it refuses one more. */
static void
fill_outputs(void)
{
  for(size_t i = 0; i < 2 * OUTPUT_ROOM + 3; i++) {
    for(enum port port = CONSOLE; port < PORTS; port++) {
      size_t room = outputs[port].room;
      port_takes = 0;
      put(port, room + 1);
      put(port, i % (room + 1));
      put(port, room - i % (room + 1));
      put(port, 1);
      check_outputs();
      port_takes = room;
      put(port, 0);
      put(port, 1);
      check_outputs();
    }
  }
}

static void
use_outputs(unsigned long calls)
{
  for(unsigned long i = 0; i < calls; i++) {
    port_takes = random_below(i / 256 % 2 == 0 ? TEXT_ROOM : TEXT_ROOM / 2);
    size_t length = random_below(TEXT_ROOM);
    put((enum port)random_below(PORTS), length);
    check_outputs();
  }
}

/* Before the rings are open: an input is lost, and a message leaves, however long it is. */
static void
check_closed_rings(void)
{
  static const char text[] = "a message of more than 16 bytes";
  receive(CONSOLE, 'x');
  input_received(RECORD, 'x');
  check_inputs();
  must("a message has room", (void *)take_report_room() == board_heap_start);
  port_takes = 1;
  for(size_t i = 0; i < sizeof text; i++) {
    push(&outputs[RECORD], (uint8_t)text[i]);
  }
  output_put_at_once(RECORD, text, sizeof text);
  must("a message has left", outputs[RECORD].length == 0 && !output_is_left(RECORD));
}

/* At a fault. */

static void
put_at_once(enum port port, size_t length)
{
  static const uint8_t bytes[2 * MOST_ROOM];
  for(size_t i = 0; i < length && outputs[port].length < outputs[port].room; i++) {
    push(&outputs[port], 0);
  }
  output_put_at_once(port, bytes, length);
}

/* A port that takes nothing is waited for once, for two seconds; the others are not held up. */
static void
check_stuck_port(void)
{
  size_t room = outputs[CONSOLE].room;
  uint64_t before = now;
  port_takes = 0;
  latest = now + 3 * SECOND;
  put_at_once(CONSOLE, room + 5);
  outputs[CONSOLE].lost += 5;
  must("a port that takes nothing is waited for two seconds", now > before + 2 * SECOND);
  latest = UINT64_MAX;
  check_outputs();
  before = now;
  put_at_once(CONSOLE, 3);
  outputs[CONSOLE].lost += 3;
  must("and not a second time", now == before);
  check_outputs();
  put(CONSOLE, 1);
  must("nor for what is printed", now == before);
  check_outputs();
  port_takes = room;
  output_put_at_once(RECORD, "", 0);
  put_at_once(RECORD, 5);
  must("another port is waited for", output_used(RECORD) == 0);
  must("bytes wait for a port that takes nothing", output_used(CONSOLE) == room);
}

/* One that takes a byte is waited for again, for two seconds; so is one that was idle. */
static void
check_slow_port(void)
{
  enum { BYTES = 20 };
  port_takes = 1;
  for(unsigned i = 0; i < BYTES; i++) {
    board_pump(CONSOLE);
    must("a port that takes a byte again is waited for", output_is_awaited(CONSOLE, true));
    now += 2 * SECOND;
    must("for two seconds", output_is_awaited(CONSOLE, true));
    now++;
    must("and no longer", !output_is_awaited(CONSOLE, true));
  }
  must("a port that keeps up isn't waited for", !output_is_awaited(CONSOLE, false));
  now += 2 * SECOND;
  must("one that was idle is", output_is_awaited(CONSOLE, true));
  put_at_once(CONSOLE, BYTES);
  must("all has left", output_used(CONSOLE) == 0);
  check_outputs();
}

/* The message of a fault is where the console's input was. */
static void
check_report_room(void)
{
  uint32_t lost = input_lost(CONSOLE);
  struct report *report;
  input_received(CONSOLE, '\n');
  report = take_report_room();
  must("a message begins with nothing", report->length == 0);
  memset(report->text, 'x', sizeof report->text);
  for(unsigned i = 0; i < 2 * INPUT_ROOM; i++) {
    input_received(CONSOLE, 'a');
  }
  must("no input is taken meanwhile", input_lost(CONSOLE) == lost + 2 * INPUT_ROOM);
  must("no input is put over it", memchr(report->text, 'a', sizeof report->text) == NULL);
}

/* A program that doesn't use the radio has no rings for it. One may begin to use it after a frame, or amid one. */
static void
open_radio_late(const char *before)
{
  for(; *before != '\0'; before++) {
    receive(RADIO, (uint8_t)*before);
    check_inputs();
  }
  rings_open_radio();
  inputs[RADIO].room = INPUT_ROOM;
  for(const char *byte = "c\300d\300"; *byte != '\0'; byte++) {
    receive(RADIO, (uint8_t)*byte);
    check_inputs();
  }
  while(inputs[RADIO].length > 0) {
    take_byte(RADIO);
  }
  take_byte(RADIO);
}

/* The radio is opened once in a process. */
static void
open_radio_amid_a_frame(void)
{
  int status = -1;
  pid_t child = fork();
  if(child == 0) {
    open_radio_late("a\300b");
    _exit(0);
  }
  must("a radio that opens amid a frame", waitpid(child, &status, 0) == child && status == 0);
}

int
main(void)
{
  for(uint32_t room = 1; room <= MOST_ROOM; room *= 2) {
    check_size(room);
  }
  check_closed_rings();
  rings_open();
  inputs[CONSOLE].room = INPUT_ROOM;
  open_radio_amid_a_frame();
  open_radio_late("a\300");
  fill_inputs();
  use_inputs(RANDOM_CALLS);
  fill_outputs();
  use_outputs(RANDOM_CALLS / 10);
  port_takes = MOST_ROOM;
  put(CONSOLE, 0);
  put(RECORD, 0);
  check_stuck_port();
  disable_interrupts();
  check_slow_port();
  check_report_room();
  return conclude();
}
