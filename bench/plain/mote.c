// A mote in plain C, to set the proved one beside: with the sizes that mote has without options it reads the same scripts and writes the
// same transcripts, for these applications. Each calls the kernel as functions, and the calls write the transcript's lines.
//
//   gcc -O2 -o plain bench/plain/mote.c && ./plain [--quiet] [blink|echo|hello|ping|relay].. < SCRIPT
#include "text.h"

enum { APPLICATIONS = 16, LINE = 127, SERIAL = 256, RING = 128, FIRST_FREE = 140 };

#define ONE_MOTE

static bool quiet;

static void
begin_line(void)
{
}

static void
carry(const uint8_t *bytes, uint32_t length)
{
  (void)bytes;
  (void)length;
}

static void
halt(void)
{
  PUT("halt\n");
  flush();
  exit(STATUS_HALTED);
}

#include "mote.h"

// The serial line.

static uint8_t ring[RING], serial_line[LINE];
static uint8_t ring_put, ring_get; // a byte's place is the count modulo RING
static bool has_overflown, is_serial_waiting;
static unsigned serial_length;

static void
serial_thread(struct process *self, const struct event *event)
{
  if(event->code == CONTINUE) is_serial_waiting = false;
  if(event->code != CONTINUE && event->code != POLL) return;
  while(!is_serial_waiting && ring_get != ring_put) {
    uint8_t byte = ring[ring_get++ % RING];
    if(byte != '\n') {
      if(serial_length < LINE) serial_line[serial_length++] = byte;
      continue;
    }
    // The line stays in its place until the event after it has come. Bytes come in at rest, so there is room for both.
    process_post(NULL, SERIAL_LINE, (struct payload){LINE_OF_TEXT, serial_length, serial_line});
    is_serial_waiting = process_post(self, CONTINUE, no_payload);
    serial_length = 0;
  }
}

static struct process serial_process = {NULL, serial_thread, 2, false};

static void
serial_input(const uint8_t *bytes, size_t length)
{
  for(size_t i = 0; i < length; i++) {
    if(bytes[i] == '\r') continue;
    bool is_full = (uint8_t)(ring_put - ring_get) == RING - 1;
    has_overflown = is_full || (has_overflown && bytes[i] != '\n');
    if(!has_overflown) ring[ring_put++ % RING] = bytes[i];
  }
  process_poll(&serial_process);
}

// Calls and applications that only this program has.

static uint8_t
alloc_event(void)
{
  static uint8_t next = FIRST_FREE;
  if(begin_turn(false)) PUT("alloc-event\n");
  told.kind = NUM;
  told.number = next;
  return next++;
}

static bool
broadcast(uint8_t code, uint32_t number)
{
  if(begin_turn(false)) {
    PUT("broadcast ");
    put_number(code);
    PUT(" ");
    end_with_number(number);
  }
  return process_post(NULL, code, (struct payload){NUMBER, number, NULL}) ? done() : refused(FULL);
}

static void
hello(struct process *process, const struct event *event)
{
  (void)process;
  if(event->code == INIT) print("hi\n", 3);
}

static void
ping(struct process *process, const struct event *event)
{
  struct application *self = (struct application *)process;
  if(event->code == INIT) {
    self->event = alloc_event();
    timer_set(self, 5);
  } else if(event->code == TIMER) {
    broadcast(self->event, self->count++);
    timer_reset(self);
  } else if(event->code == self->event) {
    char text[11];
    char *end = write_number(event->payload.number, text);
    *end++ = '\n';
    print(text, (size_t)(end - text));
  }
}

// The script.

static char in[PIECE + LINE_LIMIT + 1];
static size_t in_first, in_end, script_read;
static bool is_at_end, is_too_long;

// What was taken makes room for the next piece of the script.
static void
read_piece(void)
{
  size_t rest = in_end - in_first, most = SCRIPT_LIMIT - script_read < PIECE ? SCRIPT_LIMIT - script_read + 1 : PIECE;
  ssize_t count;
  flush();
  memmove(in, in + in_first, rest);
  do count = read(STDIN_FILENO, in + rest, most);
  while(count < 0 && errno == EINTR);
  if(count < 0) fail("read failed", STATUS_READ);
  script_read += (size_t)count;
  is_too_long = script_read > SCRIPT_LIMIT;
  is_at_end = count == 0 || is_too_long;
  in_first = 0;
  in_end = rest + (size_t)count - is_too_long;
}

// The next line of the script, NULL behind the last one. A line that is too long may be cut, which keeps it too long.
static const char *
next_line(size_t *length)
{
  for(;;) {
    const char *line = in + in_first;
    size_t rest = in_end - in_first;
    const char *end = memchr(line, '\n', rest);
    *length = end ? (size_t)(end - line) : rest;
    if(end || rest > LINE_LIMIT || (is_at_end && !is_too_long)) {
      in_first += *length + (end != NULL);
      return end || rest > 0 ? line : NULL;
    }
    if(is_at_end) return NULL;
    read_piece();
  }
}

static bool
read_tick(const char *argument, size_t length)
{
  uint32_t ticks;
  if(!read_number(argument, length, &ticks)) return false;
  if(!quiet) {
    PUT("> tick ");
    end_with_number(ticks);
  }
  tick(ticks);
  return true;
}

static bool
read_serial(const char *argument, size_t length)
{
  uint8_t bytes[SERIAL];
  size_t count = read_hex(argument, length, SERIAL, bytes);
  if(count == 0) return false;
  if(!quiet) {
    PUT("> serial ");
    end_with_bytes(bytes, count);
  }
  serial_input(bytes, count);
  return true;
}

static bool
read_frame(const char *argument, size_t length)
{
  uint8_t bytes[FRAME];
  size_t count = read_hex(argument, length, FRAME, bytes);
  if(count == 0) return false;
  if(!quiet) {
    PUT("> frame ");
    end_with_bytes(bytes, count);
  }
  enum refusal refusal = frame_input(bytes, count);
  if(refusal && !quiet) {
    PUT("note lost ");
    end_with_number(refusal);
  }
  return true;
}

// Whether the line has a form.
static bool
read_line(const char *line, size_t length)
{
  const char *argument;
  if(length > LINE_LIMIT) return false;
  if(length == 0 || line[0] == '#') return true;
  if((argument = argument_of(line, &length, "tick "))) return read_tick(argument, length);
  if((argument = argument_of(line, &length, "serial "))) return read_serial(argument, length);
  if((argument = argument_of(line, &length, "frame "))) return read_frame(argument, length);
  return false;
}

static int
carry_out(void)
{
  const char *line;
  size_t length;
  for(uint32_t number = 1; (line = next_line(&length)); number++) {
    MOTE->work = 0;
    make_room();
    if(!read_line(line, length)) {
      PUT("bad line ");
      end_with_number(number);
      return STATUS_BAD_LINE;
    }
    process_run();
  }
  if(!is_too_long) return 0;
  PUT("too long\n");
  return STATUS_TOO_LONG;
}

static const struct {
  const char *name;
  void (*thread)(struct process *self, const struct event *event);
} known[] = {{"blink", blink}, {"echo", echo}, {"hello", hello}, {"ping", ping}, {"relay", relay}};

static struct application applications[APPLICATIONS];

static void
name_application(unsigned place, const char *name)
{
  if(place == APPLICATIONS) fail("too many applications", STATUS_WORDS);
  struct process *process = &applications[place].process;
  process->number = (uint8_t)(FIRST_APPLICATION + place);
  for(size_t i = 0; i < sizeof known / sizeof *known; i++)
    if(!strcmp(name, known[i].name)) process->thread = known[i].thread;
  if(!process->thread) fail("no such application", STATUS_WORDS);
}

int
main(int argc, char **argv)
{
  unsigned count = 0;
  fill_pairs();
  for(int i = 1; i < argc; i++) {
    if(!strcmp(argv[i], "--quiet"))
      quiet = true;
    else
      name_application(count++, argv[i]);
  }
  begin_mote();
  serial_process.next = &MOTE->etimer;
  MOTE->packet.next = &serial_process;
  for(unsigned i = 0; i < count; i++) process_start(&applications[i].process);
  process_run();
  int status = carry_out();
  flush();
  return status;
}
