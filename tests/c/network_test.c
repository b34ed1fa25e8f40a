/* Networks asked step by step: a worked network, each status, and as many calls in random order as the first word says. With three
 * words, 'write', a number and a folder, so many random networks are made instead: N.net has the script of each, for the program
 * network, and N.transcript what it leads to here. With 'forget' as its only word a network is left open. */
#include "steps.h"

static const struct toarmuts_network closed_network;
static const struct toarmuts_call wait_call = {TOARMUTS_CALL_WAIT, {0}, 0, 0, 0, {0}};
static const struct toarmuts_call clock_call = {TOARMUTS_CALL_CLOCK, {0}, 0, 0, 0, {0}};
static struct toarmuts_application hello = {.kind = TOARMUTS_APPLICATION_HELLO}, nobody;
static const struct toarmuts_network_mote usual = {TOARMUTS_DEFAULTS, 1};

/* Whether what happened last has this line. */
static bool
line_is(struct toarmuts_network *network, const char *text)
{
  uint8_t line[660];
  uint64_t length = 0;
  return toarmuts_network_line(network, line, strlen(text), &length) == TOARMUTS_DONE && length == strlen(text) &&
         memcmp(line, text, length) == 0;
}

/* Whether next comes to this. */
static bool
comes_to(struct toarmuts_network *network, uint32_t step, uint32_t mote, uint32_t from, uint64_t clock)
{
  struct toarmuts_happening happening = {99, 99, 99, 99};
  struct toarmuts_turn turn;
  return toarmuts_network_next(network, &happening, &turn) == TOARMUTS_DONE && happening.step == step && happening.mote == mote &&
         happening.from == from && happening.clock == clock;
}

/* Whether next comes to this, and its line is that. */
static bool
tells(struct toarmuts_network *network, uint32_t step, uint32_t mote, uint32_t from, uint64_t clock, const char *line)
{
  return comes_to(network, step, mote, from, clock) && line_is(network, line);
}

/* Whether a turn of this mote comes next, and its line is that once the call is handed in. */
static bool
takes_turn(struct toarmuts_network *network, uint32_t mote, uint64_t clock, struct toarmuts_call call, const char *line)
{
  return comes_to(network, TOARMUTS_NETWORK_TURN, mote, 0, clock) && toarmuts_network_submit(network, &call) == TOARMUTS_DONE &&
         line_is(network, line);
}

/* Lets a mote ask for the clock in each turn until it halts. */
static bool
halts(struct toarmuts_network *network)
{
  struct toarmuts_happening happening = {0, 0, 0, 0};
  struct toarmuts_turn turn;
  while(toarmuts_network_next(network, &happening, &turn) == TOARMUTS_DONE && happening.step == TOARMUTS_NETWORK_TURN) {
    toarmuts_network_submit(network, &clock_call);
  }
  return happening.step == TOARMUTS_NETWORK_ENTRY;
}

/* Mote 1 sends to 2 and 3. Of two frames the link to 2 loses the second; only one can be in flight. Mote 3 halts at once. */
static void
check_worked(void)
{
  static const struct toarmuts_network_mote motes[] = {{TOARMUTS_DEFAULTS, 1}, {TOARMUTS_DEFAULTS, 1}, {TOARMUTS_DEFAULTS, 1}};
  static const struct toarmuts_network_sizes sizes = {1, 2, 1000};
  static const struct toarmuts_link lossy = {1, 2, 3, TOARMUTS_LOSS_EVERY, 2, 0}, plain = {1, 3, 3, TOARMUTS_LOSS_NONE, 0, 0};
  static const struct toarmuts_call alloc = {TOARMUTS_CALL_MMEM_ALLOC, {0, 1}, 0, 0, 0, {0}};
  static const struct toarmuts_call write = {TOARMUTS_CALL_MMEM_WRITE, {0, 0}, 0, 0, 1, {0x0a}};
  static const struct toarmuts_call send = {TOARMUTS_CALL_PACKET_SEND, {0}, 0, 0, 0, {0}};
  struct toarmuts_network network = closed_network;
  uint64_t clock = 99;
  check("open", toarmuts_network_open(&sizes, motes, 3, &network) == TOARMUTS_DONE && network.is_open);
  check("links", toarmuts_network_link(&network, &lossy) == TOARMUTS_DONE && toarmuts_network_link(&network, &plain) == TOARMUTS_DONE &&
                   toarmuts_network_link(&network, &plain) == TOARMUTS_NO_ROOM);
  check("mote 1 starts", takes_turn(&network, 1, 0, alloc, "1 4 synch 129 - -> mmem-alloc 0 1") &&
                           takes_turn(&network, 1, 0, write, "1 4 answer done -> mmem-write 0 0 0a") &&
                           takes_turn(&network, 1, 0, send, "1 4 answer done -> packet-send 0"));
  check("one frame in flight", tells(&network, TOARMUTS_NETWORK_ENTRY, 1, 0, 0, "1 note sent 0a") &&
                                 tells(&network, TOARMUTS_NETWORK_FULL, 3, 1, 0, "full 1 3") &&
                                 takes_turn(&network, 1, 0, wait_call, "1 4 answer done -> wait"));
  check("mote 2 starts", takes_turn(&network, 2, 0, wait_call, "2 4 synch 129 - -> wait"));
  check("mote 3 halts", halts(&network) && line_is(&network, "3 halt"));
  check("rest", comes_to(&network, TOARMUTS_NETWORK_REST, 0, 0, 0) && line_is(&network, "3 halt"));
  check("tick", toarmuts_network_tick(&network, 5) == TOARMUTS_DONE && tells(&network, TOARMUTS_NETWORK_CLOCK, 0, 0, 3, "= 3") &&
                  tells(&network, TOARMUTS_NETWORK_ENTRY, 2, 0, 3, "2 > tick 3") &&
                  tells(&network, TOARMUTS_NETWORK_ENTRY, 2, 0, 3, "2 > frame 0a") &&
                  tells(&network, TOARMUTS_NETWORK_CLOCK, 0, 0, 5, "= 5") && comes_to(&network, TOARMUTS_NETWORK_REST, 0, 0, 5) &&
                  toarmuts_network_clock(&network, &clock) == TOARMUTS_DONE && clock == 5);
  check("serial line", toarmuts_network_feed(&network, 1, TOARMUTS_SERIAL, (const uint8_t *)"a\n", 2) == TOARMUTS_DONE &&
                         tells(&network, TOARMUTS_NETWORK_ENTRY, 1, 0, 5, "1 > tick 5") &&
                         tells(&network, TOARMUTS_NETWORK_ENTRY, 1, 0, 5, "1 > serial 610a") &&
                         takes_turn(&network, 1, 5, send, "1 4 event 138 x61 -> packet-send 0"));
  check("second frame",
        tells(&network, TOARMUTS_NETWORK_ENTRY, 1, 0, 5, "1 note sent 0a") && tells(&network, TOARMUTS_NETWORK_LOST, 2, 1, 5, "lost 1 2") &&
          takes_turn(&network, 1, 5, wait_call, "1 4 answer done -> wait") && comes_to(&network, TOARMUTS_NETWORK_REST, 0, 0, 5));
  check("input for a halted mote", toarmuts_network_feed(&network, 3, TOARMUTS_FRAME, (const uint8_t *)"\7", 1) == TOARMUTS_DONE &&
                                     tells(&network, TOARMUTS_NETWORK_MISSED, 3, 0, 5, "missed - 3") &&
                                     comes_to(&network, TOARMUTS_NETWORK_REST, 0, 0, 5));
  check("frame for a halted mote",
        toarmuts_network_tick(&network, 3) == TOARMUTS_DONE && tells(&network, TOARMUTS_NETWORK_CLOCK, 0, 0, 8, "= 8") &&
          tells(&network, TOARMUTS_NETWORK_MISSED, 3, 1, 8, "missed 1 3") && comes_to(&network, TOARMUTS_NETWORK_REST, 0, 0, 8));
  check("close", toarmuts_network_close(&network) == TOARMUTS_DONE && !network.is_open);
}

/* A timer of mote 2 is due at 5. Two rounds let the clock go on to it and tell the mote; the ticks would take more. */
static void
check_halt(void)
{
  static const struct toarmuts_network_mote motes[] = {{TOARMUTS_DEFAULTS, 0}, {TOARMUTS_DEFAULTS, 1}};
  static const struct toarmuts_network_sizes sizes = {0, 0, 2};
  static const struct toarmuts_call set = {TOARMUTS_CALL_TIMER_SET, {0, 5}, 0, 0, 0, {0}};
  struct toarmuts_network network = closed_network;
  uint64_t due = 99;
  toarmuts_network_open(&sizes, motes, 2, &network);
  check("timer",
        takes_turn(&network, 2, 0, set, "2 4 synch 129 - -> timer-set 0 5") && toarmuts_network_due(&network, 2, &due) == TOARMUTS_DONE &&
          due == 5 && toarmuts_network_due(&network, 1, &due) == TOARMUTS_NO_TIMER &&
          toarmuts_network_due(&network, 0, &due) == TOARMUTS_NO_MOTE && toarmuts_network_due(&network, 3, &due) == TOARMUTS_NO_MOTE &&
          due == 5 && takes_turn(&network, 2, 0, wait_call, "2 4 answer done -> wait"));
  check("idle mote", comes_to(&network, TOARMUTS_NETWORK_REST, 0, 0, 0));
  check("timer runs out", toarmuts_network_tick(&network, 9) == TOARMUTS_DONE && tells(&network, TOARMUTS_NETWORK_CLOCK, 0, 0, 5, "= 5") &&
                            tells(&network, TOARMUTS_NETWORK_ENTRY, 2, 0, 5, "2 > tick 5") &&
                            takes_turn(&network, 2, 5, wait_call, "2 4 event 136 0 -> wait"));
  check("halt", tells(&network, TOARMUTS_NETWORK_EXHAUSTED, 0, 0, 5, "halt") &&
                  tells(&network, TOARMUTS_NETWORK_EXHAUSTED, 0, 0, 5, "halt") &&
                  toarmuts_network_tick(&network, 1) == TOARMUTS_EXHAUSTED &&
                  toarmuts_network_feed(&network, 2, TOARMUTS_FRAME, (const uint8_t *)"a", 1) == TOARMUTS_EXHAUSTED &&
                  toarmuts_network_submit(&network, &wait_call) == TOARMUTS_NO_TURN);
  check("old names", TOARMUTS_NETWORK_HALT == TOARMUTS_NETWORK_EXHAUSTED && TOARMUTS_HALT == TOARMUTS_STEP_HALTED);
  toarmuts_network_close(&network);
}

/* Each call on a closed network, and each wrong argument of open. */
static void
check_closed(void)
{
  static const struct toarmuts_network_sizes sizes = TOARMUTS_NETWORK_DEFAULTS;
  static const struct toarmuts_link link = {1, 1, 1, TOARMUTS_LOSS_NONE, 0, 0};
  struct toarmuts_network_mote many = usual, small = usual;
  struct toarmuts_network network = closed_network;
  struct toarmuts_happening happening = {99, 99, 99, 99};
  struct toarmuts_turn turn;
  uint64_t number = 99;
  uint8_t line[8];
  check("closed",
        toarmuts_network_link(&network, &link) == TOARMUTS_CLOSED &&
          toarmuts_network_next(&network, &happening, &turn) == TOARMUTS_CLOSED && happening.step == 99 &&
          toarmuts_network_submit(&network, &wait_call) == TOARMUTS_CLOSED &&
          toarmuts_network_submit_bundled(&network, &hello) == TOARMUTS_CLOSED && toarmuts_network_tick(&network, 1) == TOARMUTS_CLOSED &&
          toarmuts_network_feed(&network, 1, TOARMUTS_FRAME, line, 0) == TOARMUTS_CLOSED &&
          toarmuts_network_line(&network, line, 8, &number) == TOARMUTS_CLOSED &&
          toarmuts_network_clock(&network, &number) == TOARMUTS_CLOSED && toarmuts_network_due(&network, 1, &number) == TOARMUTS_CLOSED &&
          number == 99 && toarmuts_network_close(&network) == TOARMUTS_CLOSED);
  many.applications = 17;
  small.configuration.heap = 16;
  check("bad sizes", toarmuts_network_open(&sizes, &many, 1, &network) == TOARMUTS_BAD_SIZES &&
                       toarmuts_network_open(&sizes, &small, 1, &network) == TOARMUTS_BAD_SIZES && !network.is_open);
  check("no motes", toarmuts_network_open(&sizes, &usual, 0, &network) == TOARMUTS_DONE &&
                      toarmuts_network_link(&network, &link) == TOARMUTS_BAD_LINK && comes_to(&network, TOARMUTS_NETWORK_REST, 0, 0, 0) &&
                      toarmuts_network_tick(&network, 7) == TOARMUTS_DONE && tells(&network, TOARMUTS_NETWORK_CLOCK, 0, 0, 7, "= 7") &&
                      comes_to(&network, TOARMUTS_NETWORK_REST, 0, 0, 7));
  check("is open", toarmuts_network_open(&sizes, &many, 1, &network) == TOARMUTS_IS_OPEN && network.is_open);
  toarmuts_network_close(&network);
}

/* Each wrong order, and each wrong argument. */
static void
check_order(void)
{
  static const struct toarmuts_network_sizes sizes = TOARMUTS_NETWORK_DEFAULTS;
  static const struct toarmuts_link good = {1, 1, 1, TOARMUTS_LOSS_LOT, 65536, 0};
  static const struct toarmuts_link bad[] = {{0, 1, 1, 0, 0, 0}, {2, 1, 1, 0, 0, 0}, {1, 0, 1, 0, 0, 0},     {1, 2, 1, 0, 0, 0},
                                             {1, 1, 0, 0, 0, 0}, {1, 1, 1, 1, 0, 0}, {1, 1, 1, 2, 65537, 0}, {1, 1, 1, 3, 1, 0}};
  static const struct toarmuts_call none = {51, {0}, 0, 0, 0, {0}};
  struct toarmuts_network network = closed_network;
  struct toarmuts_happening happening;
  struct toarmuts_turn turn;
  uint64_t length = 99;
  uint8_t line[300] = {0};
  toarmuts_network_open(&sizes, &usual, 1, &network);
  for(size_t i = 0; i < sizeof bad / sizeof bad[0]; i++) {
    check("bad link", toarmuts_network_link(&network, &bad[i]) == TOARMUTS_BAD_LINK);
  }
  check("fresh", toarmuts_network_link(&network, &good) == TOARMUTS_DONE && toarmuts_network_tick(&network, 1) == TOARMUTS_NOT_AT_REST &&
                   toarmuts_network_feed(&network, 9, 9, line, 0) == TOARMUTS_NOT_AT_REST &&
                   toarmuts_network_submit(&network, &none) == TOARMUTS_NO_TURN &&
                   toarmuts_network_submit_bundled(&network, &hello) == TOARMUTS_NO_TURN &&
                   toarmuts_network_line(&network, line, 8, &length) == TOARMUTS_NO_LINE && length == 99);
  check("turn", toarmuts_network_next(&network, &happening, &turn) == TOARMUTS_DONE && turn.process == 4 &&
                  turn.origin == TOARMUTS_FROM_SYNCH && turn.stimulus == TOARMUTS_EVENT && turn.event == TOARMUTS_EVENT_INIT);
  check("awaits a call", toarmuts_network_next(&network, &happening, &turn) == TOARMUTS_AWAITS_CALL &&
                           toarmuts_network_tick(&network, 1) == TOARMUTS_AWAITS_CALL &&
                           toarmuts_network_feed(&network, 9, 9, line, 0) == TOARMUTS_AWAITS_CALL &&
                           toarmuts_network_link(&network, &bad[0]) == TOARMUTS_IS_STARTED &&
                           toarmuts_network_submit(&network, &none) == TOARMUTS_NO_CALL &&
                           toarmuts_network_submit_bundled(&network, &nobody) == TOARMUTS_NO_APPLICATION &&
                           toarmuts_network_line(&network, line, 8, &length) == TOARMUTS_NO_LINE && length == 99);
  check("line", toarmuts_network_submit(&network, &wait_call) == TOARMUTS_DONE &&
                  toarmuts_network_line(&network, line, 8, &length) == TOARMUTS_NO_ROOM && length == strlen("1 4 synch 129 - -> wait") &&
                  toarmuts_network_tick(&network, 1) == TOARMUTS_NOT_AT_REST);
  check("rest", comes_to(&network, TOARMUTS_NETWORK_REST, 0, 0, 0) &&
                  toarmuts_network_feed(&network, 0, TOARMUTS_FRAME, line, 1) == TOARMUTS_NO_MOTE &&
                  toarmuts_network_feed(&network, 2, TOARMUTS_FRAME, line, 1) == TOARMUTS_NO_MOTE &&
                  toarmuts_network_feed(&network, 1, TOARMUTS_TICK, line, 1) == TOARMUTS_NO_INPUT &&
                  toarmuts_network_feed(&network, 1, 3, line, 1) == TOARMUTS_NO_INPUT &&
                  toarmuts_network_feed(&network, 1, TOARMUTS_SERIAL, line, 0) == TOARMUTS_NO_INPUT &&
                  toarmuts_network_feed(&network, 1, TOARMUTS_FRAME, line, 128) == TOARMUTS_NO_INPUT &&
                  toarmuts_network_feed(&network, 1, TOARMUTS_SERIAL, line, 257) == TOARMUTS_NO_INPUT);
  check("one input", toarmuts_network_feed(&network, 1, TOARMUTS_SERIAL, line, 256) == TOARMUTS_DONE &&
                       toarmuts_network_feed(&network, 1, TOARMUTS_SERIAL, line, 1) == TOARMUTS_NOT_AT_REST &&
                       toarmuts_network_tick(&network, 1) == TOARMUTS_NOT_AT_REST);
  toarmuts_network_close(&network);
}

/* The clock of a mote's next timer, where a mote is asked alone. */
static void
check_due(void)
{
  static const struct toarmuts_configuration sizes = TOARMUTS_DEFAULTS;
  static const struct toarmuts_call set = {TOARMUTS_CALL_TIMER_SET, {0, 70}, 0, 0, 0, {0}};
  struct toarmuts_mote mote = {0};
  struct toarmuts_turn turn;
  uint64_t due = 99;
  uint32_t step;
  check("due, closed", toarmuts_due(&mote, &due) == TOARMUTS_CLOSED);
  toarmuts_open(&sizes, 1, &mote);
  toarmuts_next(&mote, &step, &turn);
  check("no timer", toarmuts_due(&mote, &due) == TOARMUTS_NO_TIMER && due == 99);
  toarmuts_submit(&mote, &set);
  check("due", toarmuts_due(&mote, &due) == TOARMUTS_DONE && due == 70);
  toarmuts_close(&mote);
}

/* A network, and what is known of it. */
struct known {
  struct toarmuts_network network;
  bool is_open, is_fresh, awaits, rests, is_exhausted;
  uint32_t motes, links;
};

static bool
opens(struct known *known)
{
  struct toarmuts_network_mote motes[5] = {{.applications = 0}};
  struct toarmuts_network_sizes sizes = {random_below(4), random_below(6), random_below(9) == 0 ? 1 + random_below(40) : 100000};
  uint32_t count = random_below(6);
  bool fits = true;
  for(uint32_t i = 0; i < count; i++) {
    motes[i] = usual;
    motes[i].applications = random_below(20) == 0 ? 17 : random_below(4);
    fits = fits && motes[i].applications <= 16;
  }
  uint32_t status = toarmuts_network_open(&sizes, motes, count, &known->network);
  if(known->is_open) {
    return status == TOARMUTS_IS_OPEN;
  }
  known->is_open = known->is_fresh = fits;
  known->awaits = known->rests = known->is_exhausted = false;
  known->motes = count;
  known->links = sizes.links;
  return status == (fits ? TOARMUTS_DONE : TOARMUTS_BAD_SIZES);
}

static bool
links(struct known *known)
{
  struct toarmuts_link link = {random_below(7), random_below(7), random_below(5), random_below(4), random_below(3), random_below(9)};
  bool is_one = link.from >= 1 && link.from <= known->motes && link.to >= 1 && link.to <= known->motes && link.delay >= 1 &&
                link.loss <= TOARMUTS_LOSS_LOT && (link.loss != TOARMUTS_LOSS_EVERY || link.number >= 1);
  uint32_t due = !known->is_open     ? TOARMUTS_CLOSED
                 : !known->is_fresh  ? TOARMUTS_IS_STARTED
                 : known->links == 0 ? TOARMUTS_NO_ROOM
                 : is_one            ? TOARMUTS_DONE
                                     : TOARMUTS_BAD_LINK;
  known->links -= due == TOARMUTS_DONE;
  return toarmuts_network_link(&known->network, &link) == due;
}

static bool
goes_on(struct known *known)
{
  struct toarmuts_happening happening = {99, 99, 99, 99};
  struct toarmuts_turn turn, before;
  memset(&turn, (int)random_below(256), sizeof turn);
  before = turn;
  uint32_t status = toarmuts_network_next(&known->network, &happening, &turn);
  bool is_same = memcmp(&turn, &before, sizeof turn) == 0;
  if(!known->is_open || known->awaits) {
    return status == (known->is_open ? TOARMUTS_AWAITS_CALL : TOARMUTS_CLOSED) && happening.step == 99 && is_same;
  }
  known->is_fresh = false;
  known->awaits = happening.step == TOARMUTS_NETWORK_TURN;
  known->rests = happening.step == TOARMUTS_NETWORK_REST;
  bool was_exhausted = known->is_exhausted;
  known->is_exhausted = happening.step == TOARMUTS_NETWORK_EXHAUSTED;
  return status == TOARMUTS_DONE && happening.step <= TOARMUTS_NETWORK_EXHAUSTED && happening.mote <= known->motes &&
         happening.from <= known->motes && (!was_exhausted || known->is_exhausted) && (known->awaits ? turn.process >= 4 : is_same);
}

static bool
submits(struct known *known)
{
  struct toarmuts_call call = random_call();
  if(random_below(9) == 0) {
    call.kind = random_below(60);
  }
  uint32_t status = toarmuts_network_submit(&known->network, &call);
  uint32_t due = !known->is_open ? TOARMUTS_CLOSED : !known->awaits ? TOARMUTS_NO_TURN : is_call(&call) ? TOARMUTS_DONE : TOARMUTS_NO_CALL;
  known->awaits = known->awaits && status != TOARMUTS_DONE;
  return status == due;
}

/* A bundled application in place of a call. */
static bool
submits_bundled(struct known *known)
{
  struct toarmuts_application application = any_application(), before = application;
  uint32_t status = toarmuts_network_submit_bundled(&known->network, &application);
  uint32_t due = !known->is_open           ? TOARMUTS_CLOSED
                 : !known->awaits          ? TOARMUTS_NO_TURN
                 : is_application(&before) ? TOARMUTS_DONE
                                           : TOARMUTS_NO_APPLICATION;
  known->awaits = known->awaits && status != TOARMUTS_DONE;
  return status == due && (status == TOARMUTS_DONE ? is_application(&application) : memcmp(&application, &before, sizeof before) == 0);
}

/* The status of an input that has this one by itself. */
static uint32_t
due_for(const struct known *known, uint32_t by_itself)
{
  return !known->is_open       ? TOARMUTS_CLOSED
         : known->awaits       ? TOARMUTS_AWAITS_CALL
         : known->is_exhausted ? TOARMUTS_EXHAUSTED
         : !known->rests       ? TOARMUTS_NOT_AT_REST
                               : by_itself;
}

static bool
ticks(struct known *known)
{
  uint32_t due = due_for(known, TOARMUTS_DONE);
  known->rests = known->rests && due != TOARMUTS_DONE;
  return toarmuts_network_tick(&known->network, random_below(50) == 0 ? UINT32_MAX : random_below(9)) == due;
}

static bool
feeds(struct known *known)
{
  uint32_t kind = random_below(4), mote = random_below(7);
  size_t length = random_below(2) == 0 ? random_below(3) : random_below(300);
  bool is_one = (kind == TOARMUTS_SERIAL && length >= 1 && length <= 256) || (kind == TOARMUTS_FRAME && length >= 1 && length <= 127);
  bool is_there = mote >= 1 && mote <= known->motes;
  uint8_t *bytes = malloc(length + 1);
  memset(bytes, random_below(2) == 0 ? '\n' : 'a', length + 1);
  uint32_t due = due_for(known, !is_there ? TOARMUTS_NO_MOTE : is_one ? TOARMUTS_DONE : TOARMUTS_NO_INPUT);
  uint32_t status = toarmuts_network_feed(&known->network, mote, kind, bytes, length);
  free(bytes);
  known->rests = known->rests && due != TOARMUTS_DONE;
  return status == due;
}

static bool
shows(struct known *known)
{
  uint64_t room = random_below(3) == 0 ? random_below(40) : 660, length = 9999;
  uint8_t *line = malloc(room + 1);
  memset(line, 0xaa, room + 1);
  uint32_t status = toarmuts_network_line(&known->network, line, room, &length);
  size_t written = status == TOARMUTS_DONE ? length : 0;
  bool has_line = status == TOARMUTS_DONE || (status == TOARMUTS_NO_ROOM && room < length && length < 660);
  bool holds = known->is_open ? has_line || status == TOARMUTS_NO_LINE : status == TOARMUTS_CLOSED;
  holds = holds && written <= room && (!known->awaits || status == TOARMUTS_NO_LINE) && (has_line || length == 9999);
  for(size_t i = written; holds && i <= room; i++) {
    holds = line[i] == 0xaa;
  }
  free(line);
  return holds;
}

static bool
closes(struct known *known)
{
  uint64_t number = 0;
  uint32_t mote = random_below(7), status = toarmuts_network_due(&known->network, mote, &number);
  bool is_there = mote >= 1 && mote <= known->motes;
  bool holds = !known->is_open ? status == TOARMUTS_CLOSED
               : !is_there     ? status == TOARMUTS_NO_MOTE
                               : status == TOARMUTS_DONE || status == TOARMUTS_NO_TIMER;
  holds = holds && toarmuts_network_clock(&known->network, &number) == (known->is_open ? TOARMUTS_DONE : TOARMUTS_CLOSED);
  if(random_below(200) != 0) {
    return holds;
  }
  holds = holds && toarmuts_network_close(&known->network) == (known->is_open ? TOARMUTS_DONE : TOARMUTS_CLOSED);
  known->is_open = known->is_fresh = known->awaits = known->rests = known->is_exhausted = false;
  return holds && !known->network.is_open;
}

/* Calls in any order on three networks, each with the status that is due. */
static void
check_calls(long count)
{
  static bool (*const calls[])(struct known *) = {opens,   links,   goes_on,         goes_on, goes_on, goes_on, submits,
                                                  submits, submits, submits_bundled, ticks,   feeds,   shows,   closes};
  static struct known networks[3];
  bool holds = true;
  while(holds && count-- > 0) {
    holds = calls[random_below(sizeof calls / sizeof calls[0])](&networks[random_below(3)]);
  }
  for(int i = 0; i < 3; i++) {
    toarmuts_network_close(&networks[i].network);
  }
  check("random calls", holds);
}

/* A line of a script has at most 1,024 bytes, and so has a list of calls. */
enum { MOST_MOTES = 6, MOST_LISTED = 14, MOST_LINKS = 12, MOST_INPUTS = 14 };

/* An input: ticks, or bytes for a mote. */
struct input {
  uint32_t kind, ticks, mote, length;
  uint8_t bytes[127];
};

/* A network with its inputs, where a mote has one application, bundled or a list of calls, or none. */
struct drawn {
  uint32_t motes, links, inputs;
  uint32_t applications[MOST_MOTES];
  uint32_t counts[MOST_MOTES];
  uint32_t places[MOST_MOTES];
  struct toarmuts_application bundled[MOST_MOTES];
  struct toarmuts_call calls[MOST_MOTES][MOST_LISTED];
  struct toarmuts_link link[MOST_LINKS];
  struct input input[MOST_INPUTS];
  struct toarmuts_network_sizes sizes;
};

/* A call of a list. Many send frames, or wait for some. */
static struct toarmuts_call
drawn_call(uint32_t place)
{
  static const struct toarmuts_call usual_calls[] = {
    {TOARMUTS_CALL_PACKET_OPEN, {0}, 0, 0, 0, {0}},
    {TOARMUTS_CALL_MMEM_ALLOC, {0, 3}, 0, 0, 0, {0}},
    {TOARMUTS_CALL_MMEM_WRITE, {0, 0}, 0, 0, 2, {0x0a, 0x0b}},
    {TOARMUTS_CALL_PACKET_SEND, {0}, 0, 0, 0, {0}},
    {TOARMUTS_CALL_PACKET_SEND, {0}, 0, 0, 0, {0}},
    {TOARMUTS_CALL_PACKET_DONE, {0}, 0, 0, 0, {0}},
    {TOARMUTS_CALL_TIMER_SET, {0, 4}, 0, 0, 0, {0}},
    {TOARMUTS_CALL_WAIT, {0}, 0, 0, 0, {0}},
  };
  uint32_t count = sizeof usual_calls / sizeof usual_calls[0];
  if(place < 3) {
    return usual_calls[place];
  }
  return random_below(2) == 0 ? usual_calls[random_below(count)] : random_call();
}

static void
draw_motes(struct drawn *drawn)
{
  drawn->motes = 2 + random_below(MOST_MOTES - 1);
  for(uint32_t m = 0; m < drawn->motes; m++) {
    drawn->applications[m] = random_below(5) != 0;
    drawn->counts[m] = drawn->applications[m] * random_below(MOST_LISTED + 1);
    if(drawn->applications[m] != 0 && random_below(3) == 0) {
      drawn->bundled[m] = fresh_application();
    }
    for(uint32_t i = 0; i < drawn->counts[m]; i++) {
      drawn->calls[m][i] = drawn_call(i);
    }
  }
}

static void
draw_network(struct drawn *drawn)
{
  memset(drawn, 0, sizeof *drawn);
  draw_motes(drawn);
  drawn->links = random_below(MOST_LINKS + 1);
  for(uint32_t i = 0; i < drawn->links; i++) {
    uint32_t loss = random_below(3), number = loss == TOARMUTS_LOSS_EVERY ? 1 + random_below(4) : random_below(65537);
    drawn->link[i] = (struct toarmuts_link){
      1 + random_below(drawn->motes), 1 + random_below(drawn->motes), 1 + random_below(9), loss, number, random_below(1000)};
  }
  drawn->inputs = 1 + random_below(MOST_INPUTS);
  for(uint32_t i = 0; i < drawn->inputs; i++) {
    struct input *input = &drawn->input[i];
    input->kind = random_below(4) == 0 ? TOARMUTS_SERIAL : random_below(3) == 0 ? TOARMUTS_FRAME : TOARMUTS_TICK;
    input->ticks = random_below(12);
    input->mote = 1 + random_below(drawn->motes);
    input->length = 1 + random_below(127);
    for(uint32_t k = 0; k < input->length; k++) {
      input->bytes[k] = random_below(9) == 0 ? '\n' : (uint8_t)random_below(256);
    }
  }
  drawn->sizes = (struct toarmuts_network_sizes){1 + random_below(5), MOST_LINKS, random_below(9) == 0 ? 5 : 3000};
}

/* Writes the script of a network. */
static void
write_script(FILE *file, const struct drawn *drawn)
{
  char text[600];
  for(uint32_t m = 0; m < drawn->motes; m++) {
    const char *name = names[drawn->bundled[m].kind];
    fprintf(file, "mote %u%s%s", (unsigned)m + 1, drawn->applications[m] != 0 ? " " : "", name != NULL ? name : "");
    fprintf(file, "%s", drawn->applications[m] != 0 && name == NULL ? "calls" : "");
    for(uint32_t i = 0; name == NULL && i < drawn->counts[m]; i++) {
      put_call(text, &drawn->calls[m][i]);
      fprintf(file, "%s%s", i == 0 ? " " : ", ", text);
    }
    fprintf(file, "\n");
  }
  for(uint32_t i = 0; i < drawn->links; i++) {
    const struct toarmuts_link *link = &drawn->link[i];
    fprintf(file, "link %u %u delay %u", (unsigned)link->from, (unsigned)link->to, (unsigned)link->delay);
    if(link->loss == TOARMUTS_LOSS_EVERY) {
      fprintf(file, " every %u", (unsigned)link->number);
    } else if(link->loss == TOARMUTS_LOSS_LOT) {
      fprintf(file, " lot %u seed %u", (unsigned)link->number, (unsigned)link->seed);
    }
    fprintf(file, "\n");
  }
  fprintf(file, "room %u\nrounds %u\n", (unsigned)drawn->sizes.room, (unsigned)drawn->sizes.rounds);
  for(uint32_t i = 0; i < drawn->inputs; i++) {
    const struct input *input = &drawn->input[i];
    put_hex(text, input->bytes, input->length);
    if(input->kind == TOARMUTS_TICK) {
      fprintf(file, "tick %u\n", (unsigned)input->ticks);
    } else {
      fprintf(file, "%u %s %s\n", (unsigned)input->mote, input->kind == TOARMUTS_SERIAL ? "serial" : "frame", text);
    }
  }
}

/* The turn of a mote's application. */
static void
make_turn(struct toarmuts_network *network, struct drawn *drawn, uint32_t m)
{
  uint32_t place = drawn->places[m]++;
  if(drawn->bundled[m].kind != 0) {
    toarmuts_network_submit_bundled(network, &drawn->bundled[m]);
  } else {
    toarmuts_network_submit(network, place < drawn->counts[m] ? &drawn->calls[m][place] : &wait_call);
  }
}

/* Goes on to rest or a halt, and writes each line. */
static uint32_t
write_lines(FILE *file, struct toarmuts_network *network, struct drawn *drawn)
{
  struct toarmuts_happening happening = {99, 0, 0, 0};
  struct toarmuts_turn turn;
  uint8_t line[660];
  uint64_t length;
  while(toarmuts_network_next(network, &happening, &turn) == TOARMUTS_DONE && happening.step != TOARMUTS_NETWORK_REST) {
    if(happening.step == TOARMUTS_NETWORK_TURN) {
      make_turn(network, drawn, happening.mote - 1);
    }
    if(toarmuts_network_line(network, line, sizeof line, &length) == TOARMUTS_DONE) {
      fwrite(line, 1, length, file);
      fputc('\n', file);
    }
    if(happening.step == TOARMUTS_NETWORK_EXHAUSTED) {
      break;
    }
  }
  return happening.step;
}

/* Writes what a network comes to; tells whether each call was done. */
static bool
write_transcript(FILE *file, struct drawn *drawn)
{
  struct toarmuts_network_mote motes[MOST_MOTES];
  struct toarmuts_network network = closed_network;
  for(uint32_t m = 0; m < drawn->motes; m++) {
    motes[m] = usual;
    motes[m].applications = drawn->applications[m];
  }
  bool holds = toarmuts_network_open(&drawn->sizes, motes, drawn->motes, &network) == TOARMUTS_DONE;
  for(uint32_t i = 0; i < drawn->links; i++) {
    holds = holds && toarmuts_network_link(&network, &drawn->link[i]) == TOARMUTS_DONE;
  }
  uint32_t step = write_lines(file, &network, drawn);
  for(uint32_t i = 0; i < drawn->inputs && step == TOARMUTS_NETWORK_REST; i++) {
    const struct input *input = &drawn->input[i];
    uint32_t status = input->kind == TOARMUTS_TICK ? toarmuts_network_tick(&network, input->ticks)
                                                   : toarmuts_network_feed(&network, input->mote, input->kind, input->bytes, input->length);
    holds = holds && status == TOARMUTS_DONE;
    step = write_lines(file, &network, drawn);
  }
  return toarmuts_network_close(&network) == TOARMUTS_DONE && holds;
}

/* Writes so many random networks, and what they come to. */
static void
write_networks(long count, const char *folder)
{
  static struct drawn drawn;
  char path[4096];
  for(long i = 0; i < count; i++) {
    random_state = (uint32_t)(i + 1) * 2654435761u;
    draw_network(&drawn);
    snprintf(path, sizeof path, "%s/%ld.net", folder, i);
    FILE *script = fopen(path, "wb");
    snprintf(path, sizeof path, "%s/%ld.transcript", folder, i);
    FILE *transcript = fopen(path, "wb");
    if(script == NULL || transcript == NULL) {
      check("files can be written", false);
      return;
    }
    write_script(script, &drawn);
    check("each call is done", write_transcript(transcript, &drawn));
    fclose(script);
    fclose(transcript);
  }
}

int
main(int count, char **words)
{
  if(count == 2 && strcmp(words[1], "forget") == 0) {
    struct toarmuts_network network = closed_network;
    struct toarmuts_network_sizes sizes = TOARMUTS_NETWORK_DEFAULTS;
    return (int)toarmuts_network_open(&sizes, &usual, 1, &network);
  }
  if(count == 4 && strcmp(words[1], "write") == 0) {
    write_networks(atol(words[2]), words[3]);
    return conclude();
  }
  check_worked();
  check_halt();
  check_closed();
  check_order();
  check_due();
  check_calls(count > 1 ? atol(words[1]) : 1000);
  return conclude();
}
