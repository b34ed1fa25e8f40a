// A network of motes in plain C, to set the proved one beside: it reads the scripts of bench/networks and writes the same transcripts. Each
// mote is that of mote.h with one application. It lacks what these scripts don't need: rules for losses, serial bytes, motes that halt.
//
//   gcc -O2 -o plain bench/plain/network.c && ./plain < SCRIPT
#include "text.h"

enum { ROOM = 1024, ROUNDS = 16777216 };

static const bool quiet;

static void begin_line(void);
static void carry(const uint8_t *bytes, uint32_t length);

static void
halt(void)
{
  fail("a mote halts", STATUS_HALTED);
}

#include "mote.h"

static const uint64_t longest_sleep = UINT32_MAX;

// The network: motes, frames in flight in the order of their arrival, and a heap of the moments at which motes must be told the time.

struct link {
  struct link *next;
  uint32_t to, delay;
};

// A mote with its one application, and its links.
struct node {
  struct mote mote;
  struct application application;
  struct link *links, **links_end;
};

struct flight {
  struct flight *next, *previous;
  struct node *to;
  uint64_t due;
  uint32_t length;
  uint8_t bytes[FRAME];
};

struct wake {
  uint64_t moment;
  uint32_t mote;
};

static struct node **nodes;
static struct wake *wakes; // each no later than those at twice its place, and one more
static uint32_t *wake_places, mote_count;
static struct flight flights[ROOM], *free_flights, *first_flight, *last_flight;
static uint64_t clock_now, target;
static uint32_t rounds = ROUNDS;

static bool
is_before(struct wake a, struct wake b)
{
  return a.moment < b.moment || (a.moment == b.moment && a.mote < b.mote);
}

static void
place_wake(uint32_t place, struct wake wake)
{
  wakes[place] = wake;
  wake_places[wake.mote] = place;
}

static void
set_wake(const struct mote *mote)
{
  uint64_t latest = mote->now + longest_sleep, moment = mote->next_expiry < latest ? mote->next_expiry : latest;
  if(moment <= mote->now) moment = mote->now + 1;
  struct wake wake = {moment, mote->number - 1};
  uint32_t at = wake_places[wake.mote], child;
  for(; at > 1 && is_before(wake, wakes[at / 2]); at /= 2) place_wake(at, wakes[at / 2]);
  for(; (child = 2 * at) <= mote_count; at = child) {
    if(child < mote_count && is_before(wakes[child + 1], wakes[child])) child++;
    if(!is_before(wakes[child], wake)) break;
    place_wake(at, wakes[child]);
  }
  place_wake(at, wake);
}

static void
link_flight(struct flight *flight)
{
  struct flight *before = last_flight;
  while(before && before->due > flight->due) before = before->previous;
  flight->previous = before;
  flight->next = before ? before->next : first_flight;
  *(before ? &before->next : &first_flight) = flight;
  *(flight->next ? &flight->next->previous : &last_flight) = flight;
}

static void
begin_line(void)
{
  put_number(MOTE->number);
  PUT(" ");
}

static void
carry(const uint8_t *bytes, uint32_t length)
{
  for(struct link *link = ((struct node *)MOTE)->links; link; link = link->next) {
    struct flight *flight = free_flights;
    make_room();
    if(!flight) {
      PUT("full ");
      begin_line();
      end_with_number(nodes[link->to]->mote.number);
      continue;
    }
    free_flights = flight->next;
    flight->to = nodes[link->to];
    flight->due = clock_now + link->delay;
    flight->length = length;
    memcpy(flight->bytes, bytes, length);
    link_flight(flight);
  }
}

static void
land(void)
{
  struct flight *flight = first_flight;
  first_flight = flight->next;
  *(first_flight ? &first_flight->previous : &last_flight) = NULL;
  flight->next = free_flights;
  free_flights = flight;
}

static void
work_to_rest(void)
{
  process_run();
  set_wake(MOTE);
}

static void
tell_time(struct node *node)
{
  MOTE = &node->mote;
  uint64_t behind = clock_now - MOTE->now;
  uint32_t ticks = (uint32_t)(behind < longest_sleep ? behind : longest_sleep);
  MOTE->work = 0;
  make_room();
  begin_line();
  PUT("> tick ");
  end_with_number(ticks);
  tick(ticks);
  work_to_rest();
}

static void
hand_frame(struct node *node, const uint8_t *bytes, uint32_t length)
{
  MOTE = &node->mote;
  MOTE->work = 0;
  make_room();
  begin_line();
  PUT("> frame ");
  end_with_bytes(bytes, length);
  enum refusal refusal = frame_input(bytes, length);
  if(refusal) {
    begin_line();
    PUT("note lost ");
    end_with_number(refusal);
  }
}

static void
hear(struct flight *next)
{
  if(next->to->mote.now < clock_now) {
    tell_time(next->to);
    return;
  }
  hand_frame(next->to, next->bytes, next->length);
  land();
  work_to_rest();
}

static void
pass_time(void)
{
  uint64_t moment = target;
  if(mote_count > 0 && wakes[1].moment < moment) moment = wakes[1].moment;
  if(first_flight && first_flight->due < moment) moment = first_flight->due;
  clock_now = moment;
  make_room();
  PUT("= ");
  char digits[20];
  size_t count = 0;
  for(uint64_t n = moment; n > 0 || count == 0; n /= 10) digits[count++] = (char)('0' + n % 10);
  while(count > 0) put(&digits[--count], 1);
  PUT("\n");
}

// Whether anything was left to do. It is done, unless the line has taken all its rounds.
static bool
do_round(void)
{
  bool wakes_one = mote_count > 0 && wakes[1].moment <= clock_now, arrives = first_flight && first_flight->due <= clock_now;
  if(!wakes_one && !arrives && clock_now >= target) return false;
  if(rounds-- == 0) {
    PUT("halt\n");
    flush();
    exit(STATUS_HALTED);
  }
  if(wakes_one)
    tell_time(nodes[wakes[1].mote]);
  else if(arrives)
    hear(first_flight);
  else
    pass_time();
  return true;
}

static void
settle(void)
{
  while(do_round()) {
  }
}

// The script: motes, links, and then inputs.

static void *
allocated(void *memory)
{
  if(!memory) fail("out of memory", 70);
  return memory;
}

static void
add_mote(void (*thread)(struct process *self, const struct event *event))
{
  struct node *node = allocated(calloc(1, sizeof *node));
  nodes = allocated(realloc(nodes, (mote_count + 1) * sizeof *nodes));
  nodes[mote_count++] = node;
  MOTE = &node->mote;
  MOTE->number = mote_count;
  begin_mote();
  node->application.process = (struct process){NULL, thread, FIRST_APPLICATION, false};
  node->links_end = &node->links;
}

static bool
add_motes(const char *line)
{
  static const struct {
    const char *name;
    void (*thread)(struct process *self, const struct event *event);
  } known[] = {{"blink", blink}, {"echo", echo}, {"relay", relay}};
  uint32_t first, last;
  char name[8], end;
  if(sscanf(line, "mote %" SCNu32 "..%" SCNu32 " %7s%c", &first, &last, name, &end) != 3 || first != mote_count + 1) return false;
  for(size_t i = 0; i < sizeof known / sizeof *known; i++) {
    if(strcmp(name, known[i].name) != 0) continue;
    for(; mote_count < last;) add_mote(known[i].thread);
    return true;
  }
  return false;
}

static bool
add_link(const char *line)
{
  uint32_t from, to, delay;
  char end;
  if(sscanf(line, "link %" SCNu32 " %" SCNu32 " delay %" SCNu32 "%c", &from, &to, &delay, &end) != 3) return false;
  if(from - 1 >= mote_count || to - 1 >= mote_count || delay == 0) return false;
  struct link *link = allocated(malloc(sizeof *link));
  *link = (struct link){NULL, to - 1, delay};
  *nodes[from - 1]->links_end = link;
  nodes[from - 1]->links_end = &link->next;
  return true;
}

static void
start(void)
{
  wakes = allocated(calloc(mote_count + 1, sizeof *wakes));
  wake_places = allocated(calloc(mote_count + 1, sizeof *wake_places));
  for(unsigned i = 0; i < ROOM; i++) flights[i].next = i + 1 < ROOM ? &flights[i + 1] : NULL;
  free_flights = flights;
  for(uint32_t i = 0; i < mote_count; i++) place_wake(i + 1, (struct wake){0, i});
  for(uint32_t i = 0; i < mote_count; i++) {
    MOTE = &nodes[i]->mote;
    process_start(&nodes[i]->application.process);
    work_to_rest();
  }
  settle();
}

static bool
take_frame(const char *line, size_t length)
{
  const char *space = memchr(line, ' ', length);
  size_t digits = space ? (size_t)(space - line) : 0, rest = length - digits;
  uint8_t bytes[FRAME];
  uint32_t number;
  if(!read_number(line, digits, &number) || number - 1 >= mote_count) return false;
  const char *hex = argument_of(space, &rest, " frame ");
  size_t count = hex ? read_hex(hex, rest, FRAME, bytes) : 0;
  if(count == 0) return false;
  struct node *node = nodes[number - 1];
  if(node->mote.now < clock_now) {
    tell_time(node);
    settle();
  }
  rounds = ROUNDS;
  hand_frame(node, bytes, (uint32_t)count);
  work_to_rest();
  settle();
  return true;
}

static bool
take_input(const char *line, size_t length)
{
  uint32_t ticks;
  rounds = ROUNDS;
  const char *argument = argument_of(line, &length, "tick ");
  if(!argument) return take_frame(line, length);
  if(!read_number(argument, length, &ticks)) return false;
  target += ticks;
  settle();
  return true;
}

// A line, without its end. The first input starts the motes.
static bool
take_line(const char *line, size_t length)
{
  static bool is_started;
  if(length > LINE_LIMIT) return false;
  if(length == 0 || line[0] == '#') return true;
  if(!is_started && (add_motes(line) || add_link(line))) return true;
  if(!is_started) start();
  is_started = true;
  return take_input(line, length);
}

int
main(void)
{
  static char script[SCRIPT_LIMIT + 1];
  size_t length = fread(script, 1, SCRIPT_LIMIT, stdin);
  uint32_t number = 1;
  fill_pairs();
  for(char *line = script, *end; line < script + length; line = end + 1) {
    end = strchr(line, '\n');
    if(!end) end = script + length;
    *end = '\0';
    if(!take_line(line, (size_t)(end - line))) {
      PUT("bad line ");
      end_with_number(number);
      flush();
      return STATUS_BAD_LINE;
    }
    number++;
  }
  flush();
  return 0;
}
