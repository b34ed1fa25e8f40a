/*
 * The calls of toarmuts.h in any order, with any arguments, on two motes and two networks. What must hold of each: a known status; where
 * it isn't DONE, nothing is filled in; turns, steps and lines are in their ranges; nothing is written beyond a line's room; and at the end
 * all is freed, as the leak sanitizer sees. The archive has no coverage: what happened is counted for the fuzzer by call and status.
 */
#include "toarmuts.h"

#include "bytes.h"

#include <string.h>

enum { MOST_STEPS = 400, MANY = 12000, LONGEST_LINE = 639, LONGEST_NETWORK_LINE = 660, UNCHANGED = 77, SEEN = 16384 };

/* What has happened: (call, status), (kind of call, reply or refusal), (event, payload). */
__attribute__((section("__libfuzzer_extra_counters"))) static uint8_t seen[SEEN];

/* Which refusals and steps there have ever been, for a replay with REPORT. */
static bool had_refusal[19], had_step[8];

static void
see(unsigned what)
{
  seen[what % SEEN]++;
}

static struct toarmuts_mote motes[2];
static struct toarmuts_network networks[2];
static struct toarmuts_application applications[4];
static unsigned network_sizes[2];
static uint32_t last_kind;

/* A number: mostly a small one, sometimes one at a boundary, or any. */
static uint32_t
take_number(void)
{
  static const uint32_t odd[] = {0,     127,        128,        255,        256, 65535, 65536, 4096,
                                 16384, 0x7fffffff, 0x80000000, 0xffffffff, 64,  65,    20,    16777216};
  uint8_t b = take_byte();
  uint32_t number = 0;
  switch(b >> 5) {
  case 7:
    for(unsigned shift = 0; shift < 32; shift += 8) {
      number |= (uint32_t)take_byte() << shift;
    }
    return number;
  case 6:
    return odd[b % 16];
  case 5:
    return 4u * (b % 32);
  case 4:
    return 128u + b % 32;
  default:
    return b % 32;
  }
}

static struct toarmuts_configuration
take_sizes(void)
{
  struct toarmuts_configuration sizes = TOARMUTS_DEFAULTS;
  uint8_t b = take_byte();
  if(b < 160) {
    return sizes;
  }
  sizes.mmem = (b & 16) != 0 ? 4u * take_byte() : (b & 1) != 0 ? take_number() : sizes.mmem;
  sizes.heap = (b & 2) != 0 ? take_number() : sizes.heap;
  sizes.header = (b & 32) != 0 ? 8 : (b & 4) != 0 ? take_number() : sizes.header;
  if((b & 64) != 0) {
    sizes.has_quota = 1;
    sizes.quota = 4u * take_byte() % 64;
  } else if((b & 8) != 0) {
    sizes.has_quota = take_number();
    sizes.quota = take_number();
  }
  return sizes;
}

/* A call: a quarter of them waits, and some are of no kind. */
static struct toarmuts_call
take_call(void)
{
  struct toarmuts_call call = {.kind = 0};
  uint8_t kind = take_byte();
  call.kind = kind == 255 ? take_number() : kind < 64 ? TOARMUTS_CALL_WAIT : kind % 52u;
  for(unsigned i = 0; i < sizeof call.numbers / sizeof *call.numbers; i++) {
    call.numbers[i] = take_number();
  }
  call.payload = take_byte() % 4;
  call.number = take_number();
  call.length = take_byte();
  call.length = call.length > 200 ? take_number() : call.length;
  uint8_t fill = take_byte();
  for(unsigned i = 0; i < 128; i++) {
    call.bytes[i] = i < 8 ? take_byte() : (uint8_t)(fill + i);
  }
  return call;
}

/* How often a call is made: once, or until the mote is halted. */
static unsigned
take_times(void)
{
  return take_byte() == UINT8_MAX ? MANY : 1;
}

/* Bytes of an input, with line ends now and then. */
static const uint8_t *
input_bytes(void)
{
  static uint8_t bytes[300];
  for(unsigned i = 0; i < sizeof bytes; i++) {
    bytes[i] = (uint8_t)(i % 13 == 12 ? '\n' : i + 60);
  }
  return bytes;
}

static bool
note(unsigned call, uint32_t status)
{
  WANT(status == TOARMUTS_DONE || status == TOARMUTS_BAD_LINE || status == TOARMUTS_HALTED || status == TOARMUTS_TOO_LONG ||
       (status >= TOARMUTS_NOT_TEXT && status <= TOARMUTS_NO_FRAME));
  see(call * 64 + status);
  return status == TOARMUTS_DONE;
}

static void
check_turn(const struct toarmuts_turn *turn)
{
  WANT(turn->process >= 4 && turn->process <= 19 && turn->origin <= TOARMUTS_FROM_ANSWER && turn->stimulus <= TOARMUTS_ANSWER);
  WANT(turn->payload <= TOARMUTS_LINE && turn->reply <= TOARMUTS_REPLY_STATS && turn->length <= 128);
  if(turn->stimulus != TOARMUTS_ANSWER) {
    see(8192 + turn->event % 256);
    see(8500 + turn->payload * 8 + turn->origin);
    return;
  }
  see(4096 + last_kind % 64 * 32 + (turn->reply == TOARMUTS_REPLY_REFUSED ? (unsigned)turn->number % 32 : 24 + turn->reply % 8));
  WANT(turn->reply != TOARMUTS_REPLY_REFUSED || (turn->number >= 1 && turn->number <= 18));
  had_refusal[turn->reply == TOARMUTS_REPLY_REFUSED ? turn->number : 0] = true;
  WANT(turn->reply != TOARMUTS_REPLY_FLAG || turn->number <= 1);
}

/* A line in room of exactly its size. */
static void
check_line(unsigned call, uint32_t (*get)(void *, uint8_t *, uint64_t, uint64_t *), void *of, uint64_t longest)
{
  uint64_t room = take_byte() * 3u, length = UNCHANGED;
  uint8_t *line = malloc(room + 1);
  uint32_t status = get(of, line, room, &length);
  if(note(call, status)) {
    WANT(length <= room && length <= longest && memchr(line, '\n', length) == NULL);
  } else {
    WANT(status == TOARMUTS_NO_ROOM ? length > room && length <= longest : length == UNCHANGED);
  }
  free(line);
}

/* Motes. */

static bool
next_of_mote(struct toarmuts_mote *mote, uint32_t *step)
{
  struct toarmuts_turn turn, before;
  memset(&turn, 0x5a, sizeof turn);
  before = turn;
  *step = UNCHANGED;
  bool is_done = note(3, toarmuts_next(mote, step, &turn));
  see(2100 + (is_done ? *step : 7));
  WANT(is_done ? *step <= TOARMUTS_STEP_HALTED : *step == UNCHANGED);
  if(is_done && *step == TOARMUTS_TURN) {
    check_turn(&turn);
  } else {
    WANT(memcmp(&turn, &before, sizeof turn) == 0);
  }
  return is_done;
}

static void
open_mote(struct toarmuts_mote *mote)
{
  struct toarmuts_configuration sizes = take_sizes();
  uint32_t status = toarmuts_open(&sizes, take_byte() % 19, mote);
  note(0, status);
  WANT(mote->is_open == (status == TOARMUTS_DONE || status == TOARMUTS_IS_OPEN));
}

static void
feed_mote(struct toarmuts_mote *mote)
{
  static const char *const lines[] = {"tick 5", "serial 68690a", "frame 01020304", "tick 4294967295", "",
                                      "#",      "tick 0",        "serial 0a",      "frame",           "tick 4294967296"};
  const char *line = lines[take_byte() % 10];
  note(1, toarmuts_feed(mote, (const uint8_t *)line, strlen(line)));
}

static void
feed_bytes(struct toarmuts_mote *mote)
{
  uint8_t bytes[40];
  for(unsigned i = 0; i < sizeof bytes; i++) {
    bytes[i] = take_byte();
  }
  note(1, toarmuts_feed(mote, bytes, take_byte() % 41));
}

static void
feed_input(struct toarmuts_mote *mote)
{
  uint32_t kind = take_byte() % 4, ticks = take_number(), length = take_byte();
  length = length > 250 ? take_number() : length;
  note(2, toarmuts_feed_input(mote, kind, ticks, input_bytes(), length > 300 ? 300 : length));
}

static void
submit(struct toarmuts_mote *mote)
{
  struct toarmuts_call call = take_call();
  unsigned left = take_times();
  uint32_t step = TOARMUTS_TURN;
  while(left-- > 0 && step == TOARMUTS_TURN) {
    bool is_done = note(4, toarmuts_submit(mote, &call));
    see(2400 + call.kind % 64 * 2 + is_done);
    if(!is_done) {
      return;
    }
    last_kind = call.kind;
    next_of_mote(mote, &step);
  }
}

static void
check_clock(struct toarmuts_mote *mote)
{
  uint64_t clock = UNCHANGED, due = UNCHANGED;
  WANT(note(7, toarmuts_clock(mote, &clock)) || clock == UNCHANGED);
  WANT(note(8, toarmuts_due(mote, &due)) || due == UNCHANGED);
}

static uint32_t
line_of_mote(void *mote, uint8_t *line, uint64_t room, uint64_t *length)
{
  return toarmuts_line(mote, line, room, length);
}

static void
use_mote(unsigned action, struct toarmuts_mote *mote)
{
  uint32_t step = TOARMUTS_ENTRY;
  switch(action) {
  case 0:
    open_mote(mote);
    break;
  case 1:
    feed_bytes(mote);
    break;
  case 2:
    feed_mote(mote);
    break;
  case 3:
    feed_input(mote);
    break;
  case 4:
  case 5:
    next_of_mote(mote, &step);
    break;
  case 6:
    while(next_of_mote(mote, &step) && step == TOARMUTS_ENTRY) {
    }
    break;
  case 11:
    note(5, toarmuts_submit_bundled(mote, &applications[take_byte() % 4]));
    break;
  case 12:
    check_line(6, line_of_mote, mote, LONGEST_LINE);
    break;
  case 13:
    check_clock(mote);
    break;
  case 14:
    if(take_byte() % 8 == 0) {
      note(9, toarmuts_close(mote));
      WANT(!mote->is_open);
    }
    break;
  default:
    submit(mote);
    break;
  }
}

/* Overwrites the structs of bundled applications: any numbers are safe. */
static void
spoil_applications(void)
{
  for(unsigned i = 0; i < 8; i++) {
    uint8_t place = take_byte();
    applications[take_byte() % 4].numbers[place % 4] = take_number();
  }
  applications[take_byte() % 4].kind = take_byte() % 9;
  applications[take_byte() % 4].length = take_number();
}

/* Networks. */

static bool
next_of_network(unsigned which, struct toarmuts_happening *happening)
{
  struct toarmuts_turn turn, before;
  memset(&turn, 0x5a, sizeof turn);
  before = turn;
  *happening = (struct toarmuts_happening){UNCHANGED, UNCHANGED, UNCHANGED, UNCHANGED};
  bool is_done = note(18, toarmuts_network_next(&networks[which], happening, &turn));
  see(2200 + (is_done ? happening->step : 15));
  WANT(is_done || (happening->step == UNCHANGED && happening->mote == UNCHANGED && happening->clock == UNCHANGED));
  WANT(!is_done || (happening->step <= 7 && happening->mote <= network_sizes[which] && happening->from <= network_sizes[which]));
  had_step[is_done ? happening->step : TOARMUTS_NETWORK_REST] = true;
  if(is_done && happening->step == TOARMUTS_NETWORK_TURN) {
    WANT(happening->mote >= 1);
    check_turn(&turn);
  } else {
    WANT(memcmp(&turn, &before, sizeof turn) == 0);
  }
  return is_done;
}

static void
open_network(unsigned which)
{
  struct toarmuts_network_sizes sizes = TOARMUTS_NETWORK_DEFAULTS;
  struct toarmuts_network_mote all[5];
  unsigned count = take_byte() % 6;
  uint8_t b = take_byte();
  sizes.room = (b & 1) != 0 ? take_number() % 70000 : sizes.room;
  sizes.links = (b & 2) != 0 ? take_number() % 70000 : sizes.links;
  sizes.rounds = (b & 4) != 0 ? take_number() : sizes.rounds;
  for(unsigned i = 0; i < count; i++) {
    all[i].configuration = take_sizes();
    all[i].applications = (b & 128) != 0 ? take_byte() : take_byte() % 4;
  }
  uint32_t status = toarmuts_network_open(&sizes, all, count, &networks[which]);
  network_sizes[which] = note(16, status) ? count : network_sizes[which];
  WANT(networks[which].is_open == (status == TOARMUTS_DONE || status == TOARMUTS_IS_OPEN));
}

static void
add_link(struct toarmuts_network *network)
{
  struct toarmuts_link link = {.from = take_byte() % 7};
  link.to = take_byte() % 7;
  link.delay = take_number();
  link.loss = take_byte() % 4;
  link.number = take_number();
  link.seed = take_number();
  note(17, toarmuts_network_link(network, &link));
}

static void
submit_in_network(unsigned which)
{
  struct toarmuts_call call = take_call();
  struct toarmuts_happening happening = {.step = TOARMUTS_NETWORK_TURN};
  unsigned left = take_times();
  while(left-- > 0 && happening.step == TOARMUTS_NETWORK_TURN && note(19, toarmuts_network_submit(&networks[which], &call))) {
    last_kind = call.kind;
    while(next_of_network(which, &happening) && happening.step >= TOARMUTS_NETWORK_ENTRY && happening.step <= TOARMUTS_NETWORK_MISSED) {
    }
  }
}

static void
check_network_clock(struct toarmuts_network *network)
{
  uint64_t clock = UNCHANGED, due = UNCHANGED;
  WANT(note(24, toarmuts_network_clock(network, &clock)) || clock == UNCHANGED);
  WANT(note(25, toarmuts_network_due(network, take_byte() % 8, &due)) || due == UNCHANGED);
}

static uint32_t
line_of_network(void *network, uint8_t *line, uint64_t room, uint64_t *length)
{
  return toarmuts_network_line(network, line, room, length);
}

static void
use_network(unsigned action, unsigned which)
{
  struct toarmuts_network *network = &networks[which];
  struct toarmuts_happening happening;
  uint32_t mote, kind;
  switch(action) {
  case 16:
    open_network(which);
    break;
  case 17:
  case 18:
    add_link(network);
    break;
  case 19:
  case 20:
  case 21:
    next_of_network(which, &happening);
    break;
  case 26:
    note(20, toarmuts_network_submit_bundled(network, &applications[take_byte() % 4]));
    break;
  case 27:
    note(21, toarmuts_network_tick(network, take_number()));
    break;
  case 28:
    mote = take_byte() % 7;
    kind = take_byte() % 4;
    note(22, toarmuts_network_feed(network, mote, kind, input_bytes(), take_byte()));
    break;
  case 29:
    check_line(23, line_of_network, network, LONGEST_NETWORK_LINE);
    break;
  case 30:
    check_network_clock(network);
    break;
  default:
    submit_in_network(which);
    break;
  }
}

/* Whole runs. */

static void
run_whole(void)
{
  static const char *const names[] = {"hello\n",
                                      "blink",
                                      "echo\nrelay\n",
                                      "calls timer-set 0 5, wait, print 6869",
                                      "churn\nping",
                                      "calls mmem-alloc 0 4",
                                      "tick 9\nserial 610a\ntick 1\n"};
  struct toarmuts_configuration sizes = take_sizes();
  struct toarmuts_outcome result;
  uint8_t text[64], script[64];
  uint64_t room = take_number() % 4096, length = take_byte() % 64;
  const char *name = names[take_byte() % 7], *lines = names[6];
  bool is_known = take_byte() % 2 == 0, is_script = take_byte() % 2 == 0;
  uint8_t *transcript = malloc(room + 1);
  for(unsigned i = 0; i < length; i++) {
    text[i] = take_byte();
    script[i] = take_byte();
  }
  toarmuts_run(&sizes, is_known ? (const uint8_t *)name : text, is_known ? strlen(name) : length,
               is_script ? (const uint8_t *)lines : script, is_script ? strlen(lines) : length, transcript, room, &result);
  note(30, result.status);
  see(2300 + result.reason);
  WANT(result.reason <= TOARMUTS_REASON_MANY_CALLS && (result.status > TOARMUTS_TOO_LONG || result.length <= room));
  free(transcript);
}

/* The least usual action: a network is closed, or a whole run is made. */
static void
close_or_run(unsigned which)
{
  if(take_byte() % 8 == 0) {
    note(26, toarmuts_network_close(&networks[which]));
    WANT(!networks[which].is_open);
  } else if(take_byte() % 4 == 0) {
    run_whole();
  }
}

int
LLVMFuzzerTestOneInput(const uint8_t *data, size_t size)
{
  begin_input(data, size);
  memset(applications, 0, sizeof applications);
  for(unsigned i = 0; i < 4; i++) {
    applications[i].kind = i + 2;
  }
  for(unsigned steps = 0; has_input() && steps < MOST_STEPS; steps++) {
    uint8_t b = take_byte();
    unsigned which = b >> 7, action = b % 32;
    if(action == 15) {
      spoil_applications();
    } else if(action == 31) {
      close_or_run(which);
    } else if(action < 15) {
      use_mote(action, &motes[which]);
    } else {
      use_network(action, which);
    }
  }
  for(unsigned i = 0; i < 2; i++) {
    toarmuts_close(&motes[i]);
    toarmuts_network_close(&networks[i]);
  }
  memset(motes, 0, sizeof motes);
  memset(networks, 0, sizeof networks);
  memset(network_sizes, 0, sizeof network_sizes);
  return 0;
}

#ifdef REPORT
#include <stdio.h>

/* Prints at the end what was missing. */
static void __attribute__((destructor)) report(void)
{
  for(unsigned i = 1; i < sizeof had_refusal / sizeof *had_refusal; i++) {
    if(!had_refusal[i]) {
      printf("no refusal %u\n", i);
    }
  }
  for(unsigned i = 0; i < sizeof had_step / sizeof *had_step; i++) {
    if(!had_step[i]) {
      printf("no step %u\n", i);
    }
  }
}
#endif
