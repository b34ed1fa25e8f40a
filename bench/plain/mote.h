// The mote in plain C of both programs: processes, events, timers, managed memory, frames, and applications. A program first says whether
// it has but one mote (ONE_MOTE), whether only what prints or sends is shown (quiet), what stands before each of a mote's lines
// (begin_line), what a halt leads to (halt), and what a frame that is sent (carry).

enum { WORK_LIMIT = 10000, EVENTS = 32, FIRST_APPLICATION = 4, FRAMES = 8, CHUNK = 64, FRAME = 127, MMEM = 4096 };
enum { LINE_LIMIT = 1024, SCRIPT_LIMIT = 16777216 };
enum { INIT = 129, POLL = 130, CONTINUE = 133, TIMER = 136, SERIAL_LINE = 138, PACKET = 139 };
enum refusal { FULL = 1, ALREADY = 3, BUSY = 4, NO_ROOM = 12 };

struct payload {
  enum { EMPTY, NUMBER, LINE_OF_TEXT } kind;
  uint32_t number;      // of a line: its length
  const uint8_t *bytes; // which stay as they are until the event is delivered
};

struct event {
  uint8_t code;
  struct payload payload;
};

struct process {
  struct process *next;
  void (*thread)(struct process *self, const struct event *event);
  uint8_t number;
  bool needs_poll;
};

struct posted {
  struct process *to; // NULL: all
  struct event event;
};

struct etimer {
  struct etimer *next;
  struct process *process;
  uint64_t start;
  uint32_t interval;
  bool is_armed;
};

// Blocks of managed memory lie one behind the other. Where one is freed, those behind it move down.
struct block {
  struct block *next;
  size_t size; // the room, a multiple of 4
  uint32_t length;
  uint8_t *bytes;
};

struct mote {
  uint32_t number; // from 1 on
  uint64_t now, next_expiry;
  struct process *processes, *current, etimer, packet;
  struct posted events[EVENTS];
  unsigned first_event, event_count, polls, work;
  struct etimer *timers; // those that are armed
  uint8_t memory[MMEM];
  size_t memory_used;
  struct block *blocks, **blocks_end;
  struct block frames[FRAMES]; // that came in
  unsigned first_frame, frame_count, announced;
  struct process *receiver; // which is told of them
};

// The mote at work.
#ifdef ONE_MOTE
static struct mote only_mote;
#define MOTE (&only_mote)
#else
static struct mote *mote_at_work;
#define MOTE mote_at_work
#endif

struct application {
  struct process process;
  struct etimer timer;
  struct block block;
  bool is_lit;
  uint8_t event;
  uint32_t count;
};

// What the process at work was told last: an event, or the answer to its call.
static struct {
  enum { EVENT, SYNCH, DONE, REFUSED, NUM, BYTES } kind;
  const struct event *event;
  uint32_t number;
  const uint8_t *bytes;
} told;

static const struct payload no_payload = {EMPTY, 0, NULL};

// Processes and events.

static bool
process_post(struct process *to, uint8_t code, struct payload payload)
{
  if(MOTE->event_count == EVENTS) return false;
  unsigned place = (MOTE->first_event + MOTE->event_count++) % EVENTS;
  MOTE->events[place] = (struct posted){to, {code, payload}};
  return true;
}

static void
process_poll(struct process *process)
{
  if(process->needs_poll) return;
  process->needs_poll = true;
  MOTE->polls++;
}

// Counts a turn or a round of this input.
static void
count_work(void)
{
  if(MOTE->work++ == WORK_LIMIT) halt();
}

static void
put_event(const struct event *event)
{
  put_number(event->code);
  PUT(" ");
  switch(event->payload.kind) {
  case EMPTY:
    PUT("-");
    break;
  case NUMBER:
    put_number(event->payload.number);
    break;
  case LINE_OF_TEXT:
    PUT("x");
    put_hex(event->payload.bytes, event->payload.number);
    break;
  }
}

static void
put_told(void)
{
  switch(told.kind) {
  case EVENT:
    PUT(" event ");
    put_event(told.event);
    break;
  case SYNCH:
    PUT(" synch ");
    put_event(told.event);
    break;
  case DONE:
    PUT(" answer done");
    break;
  case REFUSED:
    PUT(" answer refused ");
    put_number(told.number);
    break;
  case NUM:
    PUT(" answer num ");
    put_number(told.number);
    break;
  case BYTES:
    PUT(" answer bytes ");
    put_bytes(told.bytes, told.number);
    break;
  }
}

// Begins the line of a turn. Whether it is shown, so that the call is to follow. A quiet transcript has what prints or sends.
static bool
begin_turn(bool prints_or_sends)
{
  count_work();
  if(quiet && !prints_or_sends) return false;
  make_room();
  begin_line();
  put_number(MOTE->current->number);
  put_told();
  PUT(" -> ");
  return true;
}

static bool
done(void)
{
  told.kind = DONE;
  return true;
}

static bool
refused(enum refusal refusal)
{
  told.kind = REFUSED;
  told.number = refusal;
  return false;
}

static void
call_process(struct process *process, const struct event *event)
{
  if(process->number < FIRST_APPLICATION) {
    process->thread(process, event);
    return;
  }
  MOTE->current = process;
  told.kind = event->code == INIT ? SYNCH : EVENT;
  told.event = event;
  process->thread(process, event);
  if(begin_turn(false)) PUT("wait\n");
}

static void
process_start(struct process *process)
{
  process->next = MOTE->processes;
  MOTE->processes = process;
  call_process(process, &(struct event){INIT, no_payload});
}

static void
do_poll(void)
{
  for(struct process *p = MOTE->processes; p && MOTE->polls > 0; p = p->next) {
    if(!p->needs_poll) continue;
    p->needs_poll = false;
    MOTE->polls--;
    call_process(p, &(struct event){POLL, no_payload});
  }
}

static void
do_event(void)
{
  if(MOTE->event_count == 0) return;
  struct posted posted = MOTE->events[MOTE->first_event];
  MOTE->first_event = (MOTE->first_event + 1) % EVENTS;
  MOTE->event_count--;
  if(posted.to) {
    call_process(posted.to, &posted.event);
    return;
  }
  for(struct process *p = MOTE->processes; p; p = p->next) {
    do_poll();
    call_process(p, &posted.event);
  }
}

static void
process_run(void)
{
  while(MOTE->polls > 0 || MOTE->event_count > 0) {
    count_work();
    do_poll();
    do_event();
  }
}

// Event timers.

static void
etimer_thread(struct process *self, const struct event *event)
{
  if(event->code != POLL) return;
  struct etimer **link = &MOTE->timers;
  uint64_t next_expiry = UINT64_MAX;
  while(*link) {
    struct etimer *timer = *link;
    uint64_t deadline = timer->start + timer->interval;
    if(deadline <= MOTE->now && process_post(timer->process, TIMER, (struct payload){NUMBER, 0, NULL})) {
      timer->is_armed = false;
      *link = timer->next;
      continue;
    }
    if(deadline < next_expiry) next_expiry = deadline;
    link = &timer->next;
  }
  MOTE->next_expiry = next_expiry;
  if(next_expiry <= MOTE->now) process_poll(self);
}

static void
etimer_arm(struct etimer *timer)
{
  if(!timer->is_armed) {
    timer->is_armed = true;
    timer->next = MOTE->timers;
    MOTE->timers = timer;
  }
  process_poll(&MOTE->etimer);
}

// Only where a timer is due there is anything to do.
static void
tick(uint32_t ticks)
{
  MOTE->now += ticks;
  if(MOTE->next_expiry <= MOTE->now) process_poll(&MOTE->etimer);
}

// Managed memory.

static bool
mmem_alloc(struct block *block, uint32_t length)
{
  size_t size = (length + (size_t)3) & ~(size_t)3;
  if(size > MMEM - MOTE->memory_used) return false;
  *block = (struct block){NULL, size, length, MOTE->memory + MOTE->memory_used};
  memset(block->bytes, 0, length);
  *MOTE->blocks_end = block;
  MOTE->blocks_end = &block->next;
  MOTE->memory_used += size;
  return true;
}

static void
mmem_free(struct block *block)
{
  uint8_t *behind = block->bytes + block->size;
  memmove(block->bytes, behind, (size_t)(MOTE->memory + MOTE->memory_used - behind));
  MOTE->memory_used -= block->size;
  struct block **link = &MOTE->blocks;
  while(*link != block) link = &(*link)->next;
  *link = block->next;
  if(!block->next) MOTE->blocks_end = link;
  for(struct block *moved = block->next; moved; moved = moved->next) moved->bytes -= block->size;
}

// Frames.

static void
packet_thread(struct process *self, const struct event *event)
{
  if(event->code != POLL || !MOTE->receiver) return;
  while(MOTE->announced < MOTE->frame_count) {
    uint32_t length = MOTE->frames[(MOTE->first_frame + MOTE->announced) % FRAMES].length;
    if(!process_post(MOTE->receiver, PACKET, (struct payload){NUMBER, length, NULL})) {
      process_poll(self);
      return;
    }
    MOTE->announced++;
  }
}

// Why the frame is lost, 0 where it is held.
static enum refusal
frame_input(const uint8_t *bytes, size_t length)
{
  struct block *frame = &MOTE->frames[(MOTE->first_frame + MOTE->frame_count) % FRAMES];
  if(MOTE->frame_count == FRAMES) return FULL;
  if(!mmem_alloc(frame, (uint32_t)length)) return NO_ROOM;
  memcpy(frame->bytes, bytes, length);
  MOTE->frame_count++;
  process_poll(&MOTE->packet);
  return 0;
}

// A mote before its applications start.
static void
begin_mote(void)
{
  MOTE->next_expiry = UINT64_MAX;
  MOTE->etimer.thread = etimer_thread;
  MOTE->packet = (struct process){&MOTE->etimer, packet_thread, 3, false};
  MOTE->processes = &MOTE->packet;
  MOTE->blocks_end = &MOTE->blocks;
}

// The calls of applications: each is a turn, and its answer is told in the next one.

static void
print(const void *bytes, size_t length)
{
  if(begin_turn(true)) {
    PUT("print ");
    end_with_bytes(bytes, length);
  }
  done();
}

static void
timer_set(struct application *self, uint32_t interval)
{
  if(begin_turn(false)) {
    PUT("timer-set 0 ");
    end_with_number(interval);
  }
  self->timer.process = &self->process;
  self->timer.start = MOTE->now;
  self->timer.interval = interval;
  etimer_arm(&self->timer);
  done();
}

static void
timer_reset(struct application *self)
{
  if(begin_turn(false)) PUT("timer-reset 0\n");
  self->timer.start += self->timer.interval;
  etimer_arm(&self->timer);
  done();
}

static bool
block_alloc(struct application *self, uint32_t length)
{
  if(begin_turn(false)) {
    PUT("mmem-alloc 0 ");
    end_with_number(length);
  }
  return mmem_alloc(&self->block, length) ? done() : refused(NO_ROOM);
}

static void
block_free(struct application *self)
{
  if(begin_turn(false)) PUT("mmem-free 0\n");
  mmem_free(&self->block);
  done();
}

static void
block_write(struct application *self, uint32_t at, const uint8_t *bytes, uint32_t length)
{
  if(begin_turn(false)) {
    PUT("mmem-write 0 ");
    put_number(at);
    PUT(" ");
    end_with_bytes(bytes, length);
  }
  memcpy(self->block.bytes + at, bytes, length);
  done();
}

static bool
packet_open(struct application *self)
{
  if(begin_turn(false)) PUT("packet-open\n");
  if(MOTE->receiver) return refused(MOTE->receiver == &self->process ? ALREADY : BUSY);
  MOTE->receiver = &self->process;
  process_poll(&MOTE->packet);
  return done();
}

static void
packet_read(uint32_t at, uint32_t length, uint8_t *chunk)
{
  if(begin_turn(false)) {
    PUT("packet-read ");
    put_number(at);
    PUT(" ");
    end_with_number(length);
  }
  memcpy(chunk, MOTE->frames[MOTE->first_frame].bytes + at, length);
  told.kind = BYTES;
  told.number = length;
  told.bytes = chunk;
}

static void
packet_send(struct application *self)
{
  if(begin_turn(true)) {
    PUT("packet-send 0\n");
    begin_line();
    PUT("note sent ");
    end_with_bytes(self->block.bytes, self->block.length);
  }
  carry(self->block.bytes, self->block.length);
  done();
}

static void
packet_done(void)
{
  if(begin_turn(false)) PUT("packet-done\n");
  mmem_free(&MOTE->frames[MOTE->first_frame]);
  MOTE->first_frame = (MOTE->first_frame + 1) % FRAMES;
  MOTE->frame_count--;
  MOTE->announced--;
  done();
}

// Applications.

static void
blink(struct process *process, const struct event *event)
{
  struct application *self = (struct application *)process;
  if(event->code == INIT) {
    timer_set(self, 10);
  } else if(event->code == TIMER) {
    self->is_lit = !self->is_lit;
    const char *text = self->is_lit ? "on\n" : "off\n";
    print(text, strlen(text));
    timer_reset(self);
  }
}

static void
echo(struct process *process, const struct event *event)
{
  (void)process;
  if(event->code != SERIAL_LINE) return;
  const struct payload *line = &event->payload;
  print(line->bytes, line->number < CHUNK ? line->number : CHUNK);
  if(line->number > CHUNK) print(line->bytes + CHUNK, line->number - CHUNK);
}

// Copies a part of the frame into the block.
static void
copy_part(struct application *self, uint32_t at, uint32_t length)
{
  uint8_t chunk[CHUNK];
  packet_read(at, length, chunk);
  block_write(self, at, chunk, length);
}

static void
relay(struct process *process, const struct event *event)
{
  struct application *self = (struct application *)process;
  if(event->code == INIT) packet_open(self);
  if(event->code != PACKET) return;
  uint32_t length = event->payload.number;
  if(block_alloc(self, length)) {
    copy_part(self, 0, length < CHUNK ? length : CHUNK);
    if(length > CHUNK) copy_part(self, CHUNK, length - CHUNK);
    packet_send(self);
    block_free(self);
  }
  packet_done();
}
