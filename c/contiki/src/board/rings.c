/* Bytes between interrupts and the main loop: a ring for each direction of a port. No call of the mote is made in an interrupt. */
#include "firmware.h"
#include "ring.h"

enum { INPUT_ROOM = 512, MANY = 256, INPUTS = RECORD, FIRST_ROOM = 4, LINE_END = '\n', SLIP_END = 0xc0, SLIP_ESC = 0xdb };

/* The interrupt writes, the main loop reads. */
struct input {
  struct ring ring;
  _Atomic uint32_t ends; /* of lines or frames that were put */
  uint32_t ends_taken;
  _Atomic uint32_t lost;
  bool has_gap; /* the frame that is being put lost a byte */
};

/* The main loop writes; the interrupt reads, or the main loop while interrupts are disabled. */
struct output {
  struct ring ring;
  uint32_t lost;
  bool was_behind;
  uint32_t taken_then;
  uint64_t since; /* the count at which bytes were taken last, while it lags */
};

/* Before the rings are open a fault is reported by these. */
static uint8_t first_bytes[PORTS][FIRST_ROOM];

/* What comes from the console. A fault ends the run, and its message takes this room: no input is taken any more. */
union console_room {
  uint8_t bytes[INPUT_ROOM];
  struct report report;
};

static union console_room *console_room;
static struct input inputs[INPUTS];
static struct output outputs[PORTS] = {{.ring = {.bytes = first_bytes[CONSOLE], .room = FIRST_ROOM}},
                                       {.ring = {.bytes = first_bytes[RADIO], .room = FIRST_ROOM}},
                                       {.ring = {.bytes = first_bytes[RECORD], .room = FIRST_ROOM}}};
static const uint8_t end_of[INPUTS] = {LINE_END, SLIP_END};

static void
open_ring(struct ring *ring, uint8_t *bytes, uint32_t room)
{
  ring->bytes = bytes;
  ring->room = room;
}

/* Once the mote is open, when the stack of that is free. Until then no input is taken. */
void
rings_open(void)
{
  console_room = take_bytes(sizeof *console_room);
  open_ring(&inputs[CONSOLE].ring, console_room->bytes, INPUT_ROOM);
  open_ring(&outputs[CONSOLE].ring, take_bytes(OUTPUT_ROOM), OUTPUT_ROOM);
  if(board_settings.has_record || board_settings.run_script != NULL) {
    open_ring(&outputs[RECORD].ring, take_bytes(OUTPUT_ROOM), OUTPUT_ROOM);
  }
}

/* The radio's, once the program uses it: most programs don't. Until then all that comes there is lost. Interrupts are disabled. */
void
rings_open_radio(void)
{
  open_ring(&inputs[RADIO].ring, take_bytes(INPUT_ROOM), INPUT_ROOM);
  open_ring(&outputs[RADIO].ring, take_bytes(OUTPUT_ROOM), OUTPUT_ROOM);
}

/* The room for the message of a fault. Interrupts are disabled. Until the rings are open it is that of the mote, which isn't read any
 * more. */
struct report *
take_report_room(void)
{
  struct ring *ring = &inputs[CONSOLE].ring;
  struct report *report = console_room == NULL ? (struct report *)(void *)board_heap_start : &console_room->report;
  ring->room = 0;
  atomic_store(&ring->taken, ring->put);
  report->length = 0;
  return report;
}

/* Inputs. */

static void
put_input(struct input *input, uint8_t byte, bool is_end)
{
  if(!ring_put(&input->ring, byte)) {
    count_up(&input->lost);
    input->has_gap = input == &inputs[RADIO];
  } else if(is_end) {
    count_up(&input->ends);
  }
}

/*
 * What is left of a frame that lost a byte is lost, too, and an escape before its end makes it a bad one: the mote must not have it. Before
 * the radio is open all is lost; the first frame that begins after that arrives.
 */
void
input_received(enum port port, uint8_t byte)
{
  struct input *input = &inputs[port];
  if(port == RECORD) {
    return;
  }
  if(port == RADIO && input->ring.room == 0) {
    input->has_gap = byte != SLIP_END;
    count_up(&input->lost);
    return;
  }
  if(input->has_gap) {
    if(byte != SLIP_END || ring_used(&input->ring) + 2 > input->ring.room) {
      count_up(&input->lost);
      return;
    }
    input->has_gap = false;
    ring_put(&input->ring, SLIP_ESC);
  }
  put_input(input, byte, byte == end_of[port]);
}

/* Whether a line or a frame is whole, or so long that it must be taken in parts. */
static bool
has_work(enum port port)
{
  return count_read(&inputs[port].ends) != inputs[port].ends_taken || ring_used(&inputs[port].ring) >= MANY;
}

bool
input_is_waiting(void)
{
  return has_work(CONSOLE) || has_work(RADIO);
}

uint32_t
input_lost(enum port port)
{
  return count_read(&inputs[port].lost);
}

size_t
input_take_byte(enum port port, uint8_t *byte)
{
  int next = ring_take(&inputs[port].ring);
  if(next < 0) {
    return 0;
  }
  *byte = (uint8_t)next;
  if(*byte == end_of[port]) {
    inputs[port].ends_taken++;
  }
  return 1;
}

/* The mote acts on a line only at its end, so its bytes wait for that here. */
size_t
input_take_line(uint8_t *bytes, size_t room)
{
  size_t length = 0;
  if(has_work(CONSOLE)) {
    while(length < room && input_take_byte(CONSOLE, &bytes[length]) > 0 && bytes[length++] != LINE_END) {
    }
  }
  return length;
}

bool
input_has_frame(void)
{
  return has_work(RADIO);
}

/* Outputs. */

void
handle_console(void)
{
  board_pump(CONSOLE);
}

void
handle_radio(void)
{
  board_pump(RADIO);
}

void
handle_record(void)
{
  board_pump(RECORD);
}

int
output_next(enum port port)
{
  return ring_take(&outputs[port].ring);
}

bool
output_is_left(enum port port)
{
  return ring_used(&outputs[port].ring) > 0;
}

static void
pump(enum port port)
{
  uint32_t before = disable_interrupts();
  board_pump(port);
  restore_interrupts(before);
}

/* Whether a port that lags is waited for. One that takes nothing for a time isn't, until it takes something. */
bool
output_is_awaited(enum port port, bool is_behind)
{
  struct output *output = &outputs[port];
  uint32_t taken = count_read(&output->ring.taken);
  if(is_behind && (!output->was_behind || taken != output->taken_then)) {
    output->taken_then = taken;
    output->since = clock_count();
  }
  output->was_behind = is_behind;
  return is_behind && clock_count() - output->since <= (uint64_t)PATIENCE * board_hz;
}

/* Whether a port without room is waited for. A script has no time, so it waits without end. */
static bool
has_patience(enum port port)
{
  return board_settings.run_script != NULL || output_is_awaited(port, true);
}

/* Waits until there is room for so many bytes; false if the port takes nothing for a time. */
bool
output_wait(enum port port, size_t room)
{
  bool waits = output_left(port) < room;
  while(output_left(port) < room) {
    if(!has_patience(port)) {
      return false;
    }
    pump(port);
  }
  if(waits) {
    output_is_awaited(port, false);
  }
  return true;
}

/* Puts all bytes, for which an empty ring must have room, or none: they are lost if the port takes nothing for a time. In a script they
 * leave at once, since the emulator ends after it. */
bool
output_put(enum port port, const void *bytes, size_t length)
{
  if(board_settings.run_script != NULL) {
    output_put_at_once(port, bytes, length);
    return true;
  }
  if(!output_wait(port, length)) {
    outputs[port].lost += (uint32_t)length;
    return false;
  }
  for(size_t i = 0; i < length; i++) {
    ring_put(&outputs[port].ring, ((const uint8_t *)bytes)[i]);
  }
  pump(port);
  return true;
}

/* Waits until all bytes have left: at a fault, where nothing else happens any more, and in a script. At a fault a port that takes nothing
 * doesn't hold up what follows: its bytes are lost. */
void
output_put_at_once(enum port port, const void *bytes, size_t length)
{
  size_t i = 0;
  while(i < length || output_is_left(port)) {
    if(i < length && ring_put(&outputs[port].ring, ((const uint8_t *)bytes)[i])) {
      i++;
    } else if(has_patience(port)) {
      pump(port);
    } else {
      outputs[port].lost += (uint32_t)(length - i);
      return;
    }
  }
  output_is_awaited(port, false);
}

size_t
output_left(enum port port)
{
  return outputs[port].ring.room - output_used(port);
}

size_t
output_used(enum port port)
{
  return ring_used(&outputs[port].ring);
}

uint32_t
output_lost(enum port port)
{
  return outputs[port].lost;
}
