/* Motes asked step by step: each call's words, worked answers, as many calls in random order as the first word says, and as many
 * random runs beside toarmuts_run as the second says, of which half are made in two threads. With 'forget' as its only word a mote
 * is left open. */
#include "steps.h"

#include <pthread.h>

static const struct toarmuts_configuration defaults = TOARMUTS_DEFAULTS;
static const struct toarmuts_mote closed_mote;

/* Whether the last entry has this line. */
static bool
line_is(struct toarmuts_mote *mote, const char *text)
{
  uint8_t line[640];
  uint64_t length = 0;
  return toarmuts_line(mote, line, strlen(text), &length) == TOARMUTS_DONE && length == strlen(text) && memcmp(line, text, length) == 0;
}

static uint32_t
feed(struct toarmuts_mote *mote, const char *line)
{
  return toarmuts_feed(mote, (const uint8_t *)line, strlen(line));
}

/* Every kind of call, with other numbers at each place: its line has its word, and these in their order. */
static void
check_words(void)
{
  struct toarmuts_mote mote = closed_mote;
  struct toarmuts_turn turn;
  char text[640];
  uint32_t step;
  for(uint32_t kind = 1; kind < KINDS; kind++) {
    struct toarmuts_call call = {kind, {7, 250, 11, 13}, kind % 3, 99, 3, {0xab, 0x00, 0x1f}};
    strcpy(text, "4 synch 129 - -> ");
    put_call(text + strlen(text), &call);
    toarmuts_open(&defaults, 1, &mote);
    toarmuts_next(&mote, &step, &turn);
    check(kinds[kind].word, toarmuts_submit(&mote, &call) == TOARMUTS_DONE && line_is(&mote, text));
    toarmuts_close(&mote);
  }
}

static uint8_t
digit_of(char letter)
{
  return (uint8_t)(letter <= '9' ? letter - '0' : letter - 'a' + 10);
}

/* Whether toarmuts_sent has the bytes that the line of the last entry says, where that is a frame that was sent; and whether it leaves the
 * buffer as it is beyond them. */
static bool
has_sent(struct toarmuts_mote *mote, uint64_t room)
{
  static const char sent[] = "note sent ";
  enum { FRONT = sizeof sent - 1 };
  char line[641] = "";
  uint64_t length = 0, count = 9999, wanted = 0;
  uint8_t *bytes = malloc(room + 1);
  uint32_t of_line = toarmuts_line(mote, (uint8_t *)line, 640, &length), status;
  bool is_frame = of_line == TOARMUTS_DONE && strncmp(line, sent, FRONT) == 0, holds;
  memset(bytes, 0xaa, room + 1);
  status = toarmuts_sent(mote, bytes, room, &count);
  if(is_frame) {
    wanted = (length - FRONT) / 2;
    holds = count == wanted && status == (wanted <= room ? TOARMUTS_DONE : TOARMUTS_NO_ROOM);
  } else {
    holds = count == 9999 && status == (of_line == TOARMUTS_CLOSED ? TOARMUTS_CLOSED : TOARMUTS_NO_FRAME);
  }
  for(uint64_t i = 0; holds && i <= room; i++) {
    const char *digits = line + FRONT + 2 * i;
    bool is_written = status == TOARMUTS_DONE && i < wanted;
    holds = bytes[i] == (is_written ? digit_of(digits[0]) << 4 | digit_of(digits[1]) : 0xaa);
  }
  free(bytes);
  return holds;
}

/* A frame that is sent, with each room for it. */
static void
check_sent(void)
{
  static const struct toarmuts_call calls[] = {{TOARMUTS_CALL_MMEM_ALLOC, {0, 3}, 0, 0, 0, {0}},
                                               {TOARMUTS_CALL_MMEM_WRITE, {0, 0}, 0, 0, 3, {0x0a, 0xff, 0x90}},
                                               {TOARMUTS_CALL_PACKET_SEND, {0}, 0, 0, 0, {0}}};
  struct toarmuts_mote mote = closed_mote;
  struct toarmuts_turn turn;
  uint8_t bytes[4] = {1, 1, 1, 1};
  uint32_t step;
  uint64_t length = 9;
  check("closed, no frame", toarmuts_sent(&mote, bytes, 4, &length) == TOARMUTS_CLOSED && length == 9);
  toarmuts_open(&defaults, 1, &mote);
  check("no entry, no frame", toarmuts_sent(&mote, bytes, 4, &length) == TOARMUTS_NO_FRAME && length == 9);
  for(unsigned i = 0; i < 3; i++) {
    toarmuts_next(&mote, &step, &turn);
    toarmuts_submit(&mote, &calls[i]);
    check("a turn is no frame", toarmuts_sent(&mote, bytes, 4, &length) == TOARMUTS_NO_FRAME && length == 9);
  }
  check("the note", toarmuts_next(&mote, &step, &turn) == TOARMUTS_DONE && step == TOARMUTS_ENTRY && line_is(&mote, "note sent 0aff90"));
  for(uint64_t room = 0; room < 3; room++) {
    length = 9;
    check("too short a room", toarmuts_sent(&mote, bytes, room, &length) == TOARMUTS_NO_ROOM && length == 3 && bytes[0] == 1);
  }
  length = 9;
  check("the bytes", toarmuts_sent(&mote, bytes, 4, &length) == TOARMUTS_DONE && length == 3 && bytes[0] == 0x0a && bytes[1] == 0xff &&
                       bytes[2] == 0x90 && bytes[3] == 1);
  toarmuts_next(&mote, &step, &turn);
  check("the next turn is no frame", toarmuts_sent(&mote, bytes, 4, &length) == TOARMUTS_NO_FRAME);
  toarmuts_close(&mote);
}

/* Each wrong order, and what is told at each place. */
static void
check_order(void)
{
  static const struct toarmuts_call wait = {TOARMUTS_CALL_WAIT, {0}, 0, 0, 0, {0}}, none = {51, {0}, 0, 0, 0, {0}};
  struct toarmuts_mote mote = closed_mote;
  struct toarmuts_turn turn;
  uint32_t step = 9;
  uint64_t clock = 9;
  uint8_t line[8];
  uint64_t length = 9;
  check("closed", toarmuts_next(&mote, &step, &turn) == TOARMUTS_CLOSED && step == 9 && toarmuts_submit(&mote, &wait) == TOARMUTS_CLOSED &&
                    feed(&mote, "tick 1") == TOARMUTS_CLOSED && toarmuts_feed_input(&mote, TOARMUTS_TICK, 1, line, 0) == TOARMUTS_CLOSED &&
                    toarmuts_line(&mote, line, 8, &length) == TOARMUTS_CLOSED && length == 9 &&
                    toarmuts_clock(&mote, &clock) == TOARMUTS_CLOSED && clock == 9 && toarmuts_close(&mote) == TOARMUTS_CLOSED);
  check("many applications",
        toarmuts_open(&defaults, 17, &mote) == TOARMUTS_BAD_SIZES && toarmuts_open(&defaults, 256, &mote) == TOARMUTS_BAD_SIZES);
  check("open", toarmuts_open(&defaults, 1, &mote) == TOARMUTS_DONE && mote.is_open &&
                  toarmuts_open(&defaults, 1, &mote) == TOARMUTS_IS_OPEN && mote.is_open);
  check("boot", toarmuts_submit(&mote, &wait) == TOARMUTS_NO_TURN && toarmuts_submit(&mote, &none) == TOARMUTS_NO_TURN &&
                  feed(&mote, "tick 1") == TOARMUTS_NOT_AT_REST && toarmuts_line(&mote, line, 8, &length) == TOARMUTS_NO_LINE);
  check("turn", toarmuts_next(&mote, &step, &turn) == TOARMUTS_DONE && step == TOARMUTS_TURN && turn.process == 4 &&
                  turn.origin == TOARMUTS_FROM_SYNCH && turn.stimulus == TOARMUTS_EVENT && turn.event == TOARMUTS_EVENT_INIT &&
                  turn.payload == TOARMUTS_EMPTY);
  check("awaits", toarmuts_next(&mote, &step, &turn) == TOARMUTS_AWAITS_CALL && feed(&mote, "tock") == TOARMUTS_AWAITS_CALL &&
                    toarmuts_submit(&mote, &none) == TOARMUTS_NO_CALL && toarmuts_line(&mote, line, 8, &length) == TOARMUTS_NO_LINE);
  check("submit", toarmuts_submit(&mote, &wait) == TOARMUTS_DONE && line_is(&mote, "4 synch 129 - -> wait") &&
                    toarmuts_submit(&mote, &wait) == TOARMUTS_NO_TURN);
  check("short room", toarmuts_line(&mote, line, 8, &length) == TOARMUTS_NO_ROOM && length == 21);
  check("rest", toarmuts_next(&mote, &step, &turn) == TOARMUTS_DONE && step == TOARMUTS_REST);
  check("lines", feed(&mote, "tock") == TOARMUTS_BAD_LINE && feed(&mote, "tick 1\n") == TOARMUTS_BAD_LINE &&
                   feed(&mote, "") == TOARMUTS_DONE && feed(&mote, "# none") == TOARMUTS_DONE);
  check("inputs", toarmuts_feed_input(&mote, 3, 1, line, 1) == TOARMUTS_NO_INPUT &&
                    toarmuts_feed_input(&mote, TOARMUTS_FRAME, 0, line, 0) == TOARMUTS_NO_INPUT &&
                    toarmuts_feed_input(&mote, TOARMUTS_SERIAL, 0, line, 0) == TOARMUTS_NO_INPUT);
  check("tick", feed(&mote, "tick 5") == TOARMUTS_DONE && feed(&mote, "tick 5") == TOARMUTS_NOT_AT_REST &&
                  toarmuts_next(&mote, &step, &turn) == TOARMUTS_DONE && step == TOARMUTS_ENTRY && line_is(&mote, "> tick 5") &&
                  toarmuts_clock(&mote, &clock) == TOARMUTS_DONE && clock == 5);
  check("close", toarmuts_close(&mote) == TOARMUTS_DONE && !mote.is_open && toarmuts_close(&mote) == TOARMUTS_CLOSED);
}

/* After ten thousand turns the mote halts, and takes nothing any more. */
static void
check_halt(void)
{
  static const struct toarmuts_call clock = {TOARMUTS_CALL_CLOCK, {0}, 0, 0, 0, {0}};
  struct toarmuts_mote mote = closed_mote;
  struct toarmuts_turn turn;
  uint32_t step = TOARMUTS_TURN;
  bool holds = toarmuts_open(&defaults, 1, &mote) == TOARMUTS_DONE;
  for(int i = 0; i < 10000 && holds; i++) {
    holds = toarmuts_next(&mote, &step, &turn) == TOARMUTS_DONE && step == TOARMUTS_TURN && toarmuts_submit(&mote, &clock) == TOARMUTS_DONE;
  }
  check("ten thousand turns", holds);
  check("halt", toarmuts_next(&mote, &step, &turn) == TOARMUTS_DONE && step == TOARMUTS_ENTRY && line_is(&mote, "halt") &&
                  toarmuts_next(&mote, &step, &turn) == TOARMUTS_DONE && step == TOARMUTS_STEP_HALTED);
  check("halted", feed(&mote, "tick 1") == TOARMUTS_HALTED && toarmuts_submit(&mote, &clock) == TOARMUTS_NO_TURN);
  toarmuts_close(&mote);
}

/* Opens a mote with one application that answers these calls, one at each turn, and answers what it is told behind the last. */
static struct toarmuts_turn
told_behind(const struct toarmuts_call *calls, int count, const char *line)
{
  struct toarmuts_mote mote = closed_mote;
  struct toarmuts_turn turn;
  uint32_t step = TOARMUTS_REST;
  memset(&turn, 0, sizeof turn);
  toarmuts_open(&defaults, 1, &mote);
  for(int i = 0; i <= count; i++) {
    while(toarmuts_next(&mote, &step, &turn) == TOARMUTS_DONE && step != TOARMUTS_TURN) {
      if(step == TOARMUTS_REST && feed(&mote, line) != TOARMUTS_DONE) {
        break;
      }
    }
    if(i < count) {
      toarmuts_submit(&mote, &calls[i]);
    }
  }
  toarmuts_close(&mote);
  return turn;
}

/* What each kind of stimulus is told as. */
static void
check_turns(void)
{
  static const struct toarmuts_call wait = {TOARMUTS_CALL_WAIT, {0}, 0, 0, 0, {0}};
  struct toarmuts_call calls[3] = {{TOARMUTS_CALL_KILL, {9}, 0, 0, 0, {0}}};
  struct toarmuts_turn turn = told_behind(calls, 1, "");
  check("refused", turn.stimulus == TOARMUTS_ANSWER && turn.origin == TOARMUTS_FROM_ANSWER && turn.reply == TOARMUTS_REPLY_REFUSED &&
                     turn.number == TOARMUTS_REFUSAL_BAD_NAME);
  calls[0].kind = TOARMUTS_CALL_MMEM_AVAIL;
  turn = told_behind(calls, 1, "");
  check("num", turn.reply == TOARMUTS_REPLY_NUM && turn.number == 4096);
  calls[0].kind = TOARMUTS_CALL_CLOCK;
  turn = told_behind(calls, 1, "");
  check("wide", turn.reply == TOARMUTS_REPLY_WIDE && turn.number == 0);
  calls[0] = (struct toarmuts_call){TOARMUTS_CALL_IS_RUNNING, {4}, 0, 0, 0, {0}};
  turn = told_behind(calls, 1, "");
  check("flag", turn.reply == TOARMUTS_REPLY_FLAG && turn.number == 1);
  calls[0] = (struct toarmuts_call){TOARMUTS_CALL_HEAP_ALLOC, {0, 20}, 0, 0, 0, {0}};
  calls[1] = (struct toarmuts_call){TOARMUTS_CALL_HEAP_ALLOC, {1, 4}, 0, 0, 0, {0}};
  calls[2].kind = TOARMUTS_CALL_HEAP_STATS;
  turn = told_behind(calls, 3, "");
  check("stats", turn.reply == TOARMUTS_REPLY_STATS && turn.number == 0 && turn.stats.allocated == 24 && turn.stats.overhead == 32 &&
                   turn.stats.available == 4040 && turn.stats.footprint == 56 && turn.stats.chunks == 2);
  calls[0] = (struct toarmuts_call){TOARMUTS_CALL_MMEM_ALLOC, {1, 6}, 0, 0, 0, {0}};
  calls[1] = (struct toarmuts_call){TOARMUTS_CALL_MMEM_WRITE, {1, 2}, 0, 0, 2, {0x68, 0x69}};
  calls[2] = (struct toarmuts_call){TOARMUTS_CALL_MMEM_READ, {1, 1, 4}, 0, 0, 0, {0}};
  turn = told_behind(calls, 2, "");
  check("done", turn.reply == TOARMUTS_REPLY_DONE && turn.length == 0);
  turn = told_behind(calls, 3, "");
  check("bytes", turn.reply == TOARMUTS_REPLY_BYTES && turn.length == 4 && memcmp(turn.bytes, "\0hi\0", 4) == 0);
  calls[0] = (struct toarmuts_call){TOARMUTS_CALL_CALLBACK_SET, {3, 2}, 0, 0, 0, {0}};
  calls[1] = wait;
  turn = told_behind(calls, 2, "tick 2");
  check("callback", turn.stimulus == TOARMUTS_CALLBACK && turn.origin == TOARMUTS_FROM_CALLBACK && turn.number == 3);
  turn = told_behind(&wait, 1, "serial 68690a");
  check("line", turn.stimulus == TOARMUTS_EVENT && turn.origin == TOARMUTS_FROM_EVENT && turn.event == TOARMUTS_EVENT_SERIAL_LINE &&
                  turn.payload == TOARMUTS_LINE && turn.length == 2 && memcmp(turn.bytes, "hi", 2) == 0);
  calls[0] = (struct toarmuts_call){TOARMUTS_CALL_POST, {4, 140}, TOARMUTS_NUMBER, 77, 0, {0}};
  turn = told_behind(calls, 2, "");
  check("number", turn.event == 140 && turn.payload == TOARMUTS_NUMBER && turn.number == 77);
  calls[0] = (struct toarmuts_call){TOARMUTS_CALL_POLL, {4}, 0, 0, 0, {0}};
  turn = told_behind(calls, 2, "");
  check("poll", turn.origin == TOARMUTS_FROM_POLL && turn.event == TOARMUTS_EVENT_POLL);
}

/* Lets a bundled application take the turn that comes next; its line is that. */
static bool
takes_turn(struct toarmuts_mote *mote, struct toarmuts_application *application, const char *line)
{
  struct toarmuts_turn turn;
  uint32_t step = TOARMUTS_STEP_HALTED;
  return toarmuts_next(mote, &step, &turn) == TOARMUTS_DONE && step == TOARMUTS_TURN &&
         toarmuts_submit_bundled(mote, application) == TOARMUTS_DONE && line_is(mote, line);
}

/* Bundled applications: what is refused changes nothing, and a copy goes on as the original. */
static void
check_bundled(void)
{
  static const struct toarmuts_application refused[] = {
    {0, {0}, 0, {0}},
    {7, {0}, 0, {0}},
    {TOARMUTS_APPLICATION_ECHO, {0}, 65, {0}},
    {TOARMUTS_APPLICATION_RELAY, {9, 0}, 0, {0}},
    {TOARMUTS_APPLICATION_RELAY, {0, 256}, 0, {0}},
    {TOARMUTS_APPLICATION_CHURN, {1, 256}, 0, {0}},
    {TOARMUTS_APPLICATION_PING, {3, 0, 0, 0}, 0, {0}},
    {TOARMUTS_APPLICATION_PING, {0, 0, 1, 256}, 0, {0}},
  };
  struct toarmuts_application blink = {.kind = TOARMUTS_APPLICATION_BLINK}, copy = blink, echo = {.kind = TOARMUTS_APPLICATION_ECHO};
  struct toarmuts_mote mote = closed_mote;
  struct toarmuts_turn turn;
  uint32_t step;
  check("bundled, closed", toarmuts_submit_bundled(&mote, &blink) == TOARMUTS_CLOSED);
  toarmuts_open(&defaults, 1, &mote);
  check("bundled, no turn", toarmuts_submit_bundled(&mote, &blink) == TOARMUTS_NO_TURN && memcmp(&blink, &copy, sizeof blink) == 0);
  toarmuts_next(&mote, &step, &turn);
  for(size_t i = 0; i < sizeof refused / sizeof refused[0]; i++) {
    struct toarmuts_application application = refused[i];
    check("bundled, refused", toarmuts_submit_bundled(&mote, &application) == TOARMUTS_NO_APPLICATION &&
                                memcmp(&application, &refused[i], sizeof application) == 0);
  }
  check("blink starts", toarmuts_submit_bundled(&mote, &blink) == TOARMUTS_DONE && line_is(&mote, "4 synch 129 - -> timer-set 0 10") &&
                          takes_turn(&mote, &blink, "4 answer done -> wait") && toarmuts_next(&mote, &step, &turn) == TOARMUTS_DONE);
  feed(&mote, "tick 10");
  toarmuts_next(&mote, &step, &turn);
  copy = blink;
  check("blink goes on", takes_turn(&mote, &copy, "4 event 136 0 -> print 6f6e0a") &&
                           takes_turn(&mote, &copy, "4 answer done -> timer-reset 0") && takes_turn(&mote, &copy, "4 answer done -> wait"));
  toarmuts_next(&mote, &step, &turn);
  feed(&mote, "tick 10");
  toarmuts_next(&mote, &step, &turn);
  check("the older state prints on once more", takes_turn(&mote, &blink, "4 event 136 0 -> print 6f6e0a"));
  toarmuts_close(&mote);
  toarmuts_open(&defaults, 1, &mote);
  check("echo", takes_turn(&mote, &echo, "4 synch 129 - -> wait") && toarmuts_next(&mote, &step, &turn) == TOARMUTS_DONE);
  feed(&mote, "serial 68690a");
  toarmuts_next(&mote, &step, &turn);
  check("echo prints", takes_turn(&mote, &echo, "4 event 138 x6869 -> print 6869"));
  toarmuts_close(&mote);
}

/* A mote, and what is known of it. */
struct known {
  struct toarmuts_mote mote;
  bool is_open, awaits, rests, is_halted;
};

/* A struct of any numbers. */
static struct toarmuts_call
any_call(void)
{
  struct toarmuts_call call = random_call();
  uint32_t *words[] = {&call.kind,       &call.numbers[0], &call.numbers[1], &call.numbers[2],
                       &call.numbers[3], &call.payload,    &call.number,     &call.length};
  if(random_below(4) == 0) {
    *words[random_below(8)] = random_below(2) == 0 ? random_below(300) : 0xffffff00 + random_below(256);
  }
  return call;
}

static bool
opens(struct known *known)
{
  struct toarmuts_configuration sizes = {random_below(64) * 4, random_below(64) * 4, 8 + random_below(2) * 8,
                                         random_below(2),      random_below(8) * 4,  0};
  uint32_t applications = 1 + random_below(17);
  bool fits = sizes.mmem >= 4 && sizes.heap >= 20 && applications <= 16 &&
              (sizes.has_quota == 0 || (sizes.quota >= 4 && sizes.quota * (applications + 1) <= sizes.mmem));
  uint32_t status = toarmuts_open(&sizes, applications, &known->mote);
  if(known->is_open) {
    return status == TOARMUTS_IS_OPEN;
  }
  known->is_open = fits;
  known->awaits = known->rests = known->is_halted = false;
  return status == (fits ? TOARMUTS_DONE : TOARMUTS_BAD_SIZES);
}

static bool
goes_on(struct known *known)
{
  struct toarmuts_turn turn, before;
  uint32_t step = 9, status;
  memset(&turn, (int)random_below(256), sizeof turn);
  before = turn;
  status = toarmuts_next(&known->mote, &step, &turn);
  if(!known->is_open || known->awaits) {
    return status == (known->is_open ? TOARMUTS_AWAITS_CALL : TOARMUTS_CLOSED) && step == 9 && memcmp(&turn, &before, sizeof turn) == 0;
  }
  known->awaits = step == TOARMUTS_TURN;
  known->rests = step == TOARMUTS_REST;
  known->is_halted = known->is_halted || (step == TOARMUTS_ENTRY && line_is(&known->mote, "halt"));
  if(known->is_halted ? step != TOARMUTS_STEP_HALTED && step != TOARMUTS_ENTRY : step == TOARMUTS_STEP_HALTED) {
    return false;
  }
  return status == TOARMUTS_DONE && step <= TOARMUTS_STEP_HALTED &&
         (step != TOARMUTS_TURN || (turn.process >= 4 && turn.process <= 19 && turn.length <= 127));
}

static bool
answers(struct known *known)
{
  struct toarmuts_call call = any_call();
  uint32_t status = toarmuts_submit(&known->mote, &call);
  uint32_t due = !known->is_open ? TOARMUTS_CLOSED : !known->awaits ? TOARMUTS_NO_TURN : is_call(&call) ? TOARMUTS_DONE : TOARMUTS_NO_CALL;
  known->awaits = known->awaits && status != TOARMUTS_DONE;
  return status == due;
}

/* A bundled application in place of a call. */
static bool
answers_bundled(struct known *known)
{
  struct toarmuts_application application = any_application(), before = application;
  uint32_t status = toarmuts_submit_bundled(&known->mote, &application);
  uint32_t due = !known->is_open           ? TOARMUTS_CLOSED
                 : !known->awaits          ? TOARMUTS_NO_TURN
                 : is_application(&before) ? TOARMUTS_DONE
                                           : TOARMUTS_NO_APPLICATION;
  known->awaits = known->awaits && status != TOARMUTS_DONE;
  return status == due && (status == TOARMUTS_DONE ? is_application(&application) : memcmp(&application, &before, sizeof before) == 0);
}

/* Whether what is handed in is answered as is due, where by itself it has this status. A mote may rest before next says so. */
static bool
is_due(const struct known *known, uint32_t status, uint32_t by_itself)
{
  if(!known->is_open || known->awaits || known->is_halted) {
    return status == (!known->is_open ? TOARMUTS_CLOSED : known->awaits ? TOARMUTS_AWAITS_CALL : TOARMUTS_HALTED);
  }
  return status == by_itself || (!known->rests && status == TOARMUTS_NOT_AT_REST);
}

static bool
takes_line(struct known *known)
{
  static const struct {
    const char *line;
    uint32_t status;
  } lines[] = {{"tick 3", 0}, {"tick 4294967295", 0}, {"serial 610a", 0}, {"frame 0102", 0}, {"", 0}, {"# tick", 0},
               {"tick", 2},   {"serial ", 2},         {"frame 0", 2}};
  uint32_t which = random_below(sizeof lines / sizeof lines[0]);
  uint32_t status = feed(&known->mote, lines[which].line);
  bool holds = is_due(known, status, lines[which].status);
  known->rests = known->rests && (status != TOARMUTS_DONE || which == 4 || which == 5);
  return holds;
}

static bool
takes_input(struct known *known)
{
  uint32_t kind = random_below(4);
  size_t length = random_below(2) == 0 ? random_below(3) : random_below(300);
  bool is_one = kind == TOARMUTS_TICK || (kind == TOARMUTS_SERIAL && length >= 1 && length <= 256) ||
                (kind == TOARMUTS_FRAME && length >= 1 && length <= 127);
  uint8_t *bytes = malloc(length + 1);
  memset(bytes, (int)random_below(256), length + 1);
  uint32_t status = toarmuts_feed_input(&known->mote, kind, random_below(9), bytes, length);
  free(bytes);
  bool holds = is_due(known, status, is_one ? TOARMUTS_DONE : TOARMUTS_NO_INPUT);
  known->rests = known->rests && status != TOARMUTS_DONE;
  return holds;
}

static bool
tells(struct known *known)
{
  uint64_t room = random_below(3) == 0 ? random_below(40) : 640, length = 9999;
  uint8_t *line = malloc(room + 1);
  memset(line, 0xaa, room + 1);
  uint32_t status = toarmuts_line(&known->mote, line, room, &length);
  size_t written = status == TOARMUTS_DONE ? length : 0;
  bool has_line = status == TOARMUTS_DONE || (status == TOARMUTS_NO_ROOM && room < length && length < 640);
  bool holds = known->is_open ? has_line || status == TOARMUTS_NO_LINE : status == TOARMUTS_CLOSED;
  holds = holds && written <= room && (!known->awaits || status == TOARMUTS_NO_LINE) && (has_line || length == 9999);
  for(size_t i = written; holds && i <= room; i++) {
    holds = line[i] == 0xaa;
  }
  free(line);
  return holds && has_sent(&known->mote, random_below(130));
}

static bool
closes(struct known *known)
{
  bool was_open = known->is_open;
  uint64_t clock = 0;
  if(toarmuts_clock(&known->mote, &clock) != (was_open ? TOARMUTS_DONE : TOARMUTS_CLOSED)) {
    return false;
  }
  if(random_below(20) != 0) {
    return true;
  }
  known->is_open = known->awaits = known->rests = known->is_halted = false;
  return toarmuts_close(&known->mote) == (was_open ? TOARMUTS_DONE : TOARMUTS_CLOSED);
}

/* Calls in any order on three motes, each with the status that is due. */
static void
check_calls(long count)
{
  static bool (*const calls[])(struct known *) = {opens,           goes_on, goes_on,    goes_on,     answers, answers,
                                                  answers_bundled, answers, takes_line, takes_input, tells,   closes};
  static struct known motes[3];
  bool holds = true;
  while(holds && count-- > 0) {
    holds = calls[random_below(sizeof calls / sizeof calls[0])](&motes[random_below(3)]);
  }
  for(int i = 0; i < 3; i++) {
    toarmuts_close(&motes[i].mote);
  }
  check("random calls", holds);
}

enum { MOST_LISTED = 40, MOST_LINES = 30, MOST_TEXT = 1 << 20 };

/* Applications that are bundled or lists of calls, and a script. Now and then the first application asks for the clock at every turn,
 * which halts the mote. */
struct scenario {
  bool watches_clock;
  uint32_t applications, lines;
  struct toarmuts_application bundled[6];
  uint32_t counts[6];
  struct toarmuts_call calls[6][MOST_LISTED];
  char script[MOST_LINES][600];
};

static void
make_scenario(struct scenario *scenario)
{
  scenario->applications = random_below(7);
  scenario->watches_clock = scenario->applications > 0 && random_below(100) == 0;
  for(uint32_t i = 0; i < scenario->applications; i++) {
    scenario->bundled[i] = random_below(2) == 0 ? fresh_application() : (struct toarmuts_application){0};
    scenario->counts[i] = random_below(MOST_LISTED + 1);
    for(uint32_t k = 0; k < scenario->counts[i]; k++) {
      scenario->calls[i][k] = random_call();
    }
  }
  scenario->lines = random_below(MOST_LINES);
  for(uint32_t i = 0; i < scenario->lines; i++) {
    char *line = scenario->script[i];
    uint32_t which = random_below(40);
    uint8_t bytes[127];
    for(size_t k = 0; k < sizeof bytes; k++) {
      bytes[k] = which % 2 == 0 ? (uint8_t)("ab\n\r"[random_below(4)]) : (uint8_t)random_below(256);
    }
    if(which < 20) {
      sprintf(line, "tick %u", (unsigned)random_below(9));
    } else if(which < 38) {
      strcpy(line, which % 4 < 2 ? "serial " : "frame ");
      put_hex(line + strlen(line), bytes, 1 + random_below(sizeof bytes));
    } else {
      strcpy(line, which == 38 ? "# nothing" : random_below(4) == 0 ? "tick 01" : "");
    }
  }
}

/* The lines of a scenario's applications, as toarmuts_run takes them. */
static char *
put_applications(char *text, const struct scenario *scenario)
{
  for(uint32_t i = 0; i < scenario->applications; i++) {
    const char *name = i == 0 && scenario->watches_clock ? "clock-watcher" : names[scenario->bundled[i].kind];
    text += sprintf(text, "%s", name != NULL ? name : "calls");
    for(uint32_t k = 0; name == NULL && k < scenario->counts[i]; k++) {
      text += sprintf(text, k == 0 ? " " : ", ");
      text = put_call(text, &scenario->calls[i][k]);
    }
    text += sprintf(text, "\n");
  }
  return text;
}

static char *
put_script(char *text, const struct scenario *scenario)
{
  for(uint32_t i = 0; i < scenario->lines; i++) {
    text += sprintf(text, "%s\n", scenario->script[i]);
  }
  return text;
}

/* The call that an application makes at its turn of this number. */
static const struct toarmuts_call *
call_of(const struct scenario *scenario, uint32_t application, uint32_t turn)
{
  static const struct toarmuts_call wait = {TOARMUTS_CALL_WAIT, {0}, 0, 0, 0, {0}}, clock = {TOARMUTS_CALL_CLOCK, {0}, 0, 0, 0, {0}};
  if(application == 0 && scenario->watches_clock) {
    return &clock;
  }
  return turn < scenario->counts[application] ? &scenario->calls[application][turn] : &wait;
}

/* How far the applications of a scenario are. */
struct progress {
  uint32_t places[6];
  struct toarmuts_application bundled[6];
};

/* The turn of an application, which is bundled or goes through its list. */
static uint32_t
make_turn(struct toarmuts_mote *mote, const struct scenario *scenario, struct progress *progress, uint32_t application)
{
  bool watches = application == 0 && scenario->watches_clock;
  return !watches && progress->bundled[application].kind != 0
           ? toarmuts_submit_bundled(mote, &progress->bundled[application])
           : toarmuts_submit(mote, call_of(scenario, application, progress->places[application]++));
}

/* Goes on to rest or a halt, and appends the lines of all entries. */
static char *
put_entries(char *text, struct toarmuts_mote *mote, const struct scenario *scenario, struct progress *progress, bool *holds)
{
  struct toarmuts_turn turn;
  uint32_t step;
  uint64_t length;
  memset(&turn, 0, sizeof turn);
  while(toarmuts_next(mote, &step, &turn) == TOARMUTS_DONE && step < TOARMUTS_REST) {
    if(step == TOARMUTS_TURN) {
      *holds = *holds && make_turn(mote, scenario, progress, turn.process - 4) == TOARMUTS_DONE;
    }
    *holds = *holds && toarmuts_line(mote, (uint8_t *)text, 640, &length) == TOARMUTS_DONE && has_sent(mote, 127);
    text += length;
    *text++ = '\n';
  }
  return text;
}

/* Hands in what a line says, as a line or as an input. */
static uint32_t
hand_in(struct toarmuts_mote *mote, const char *line)
{
  const char *digits = strchr(line, ' ');
  uint8_t bytes[256];
  size_t length = 0;
  unsigned number = 0;
  if(random_below(2) == 0 || digits == NULL || line[0] == '#' || strcmp(line, "tick 01") == 0) {
    return feed(mote, line);
  }
  if(line[0] == 't') {
    sscanf(digits, "%u", &number);
    return toarmuts_feed_input(mote, TOARMUTS_TICK, number, bytes, 0);
  }
  for(digits++; sscanf(digits, "%2x", &number) == 1; digits += 2) {
    bytes[length++] = (uint8_t)number;
  }
  return toarmuts_feed_input(mote, line[0] == 's' ? TOARMUTS_SERIAL : TOARMUTS_FRAME, 0, bytes, length);
}

/* The same run step by step; a line that has no form ends it, and so does a halt. */
static char *
put_run(char *text, const struct scenario *scenario, bool *holds)
{
  struct toarmuts_mote mote = closed_mote;
  struct progress progress = {{0}, {{0}}};
  uint32_t status = toarmuts_open(&defaults, scenario->applications, &mote);
  memcpy(progress.bundled, scenario->bundled, sizeof progress.bundled);
  *holds = *holds && status == TOARMUTS_DONE;
  text = put_entries(text, &mote, scenario, &progress, holds);
  for(uint32_t i = 0; i < scenario->lines && status == TOARMUTS_DONE; i++) {
    status = hand_in(&mote, scenario->script[i]);
    if(status == TOARMUTS_BAD_LINE) {
      text += sprintf(text, "bad line %u\n", (unsigned)i + 1);
    }
    text = put_entries(text, &mote, scenario, &progress, holds);
  }
  *holds = *holds && toarmuts_close(&mote) == TOARMUTS_DONE;
  return text;
}

/* As many random runs, step by step and by toarmuts_run; NULL where all came out alike. */
static void *
make_runs(void *count)
{
  struct scenario *scenario = malloc(sizeof *scenario);
  char *applications = malloc(MOST_TEXT), *script = malloc(MOST_TEXT), *by_steps = malloc(4 * MOST_TEXT);
  uint8_t *by_run = malloc(4 * MOST_TEXT);
  bool holds = true;
  random_state = (uint32_t)(*(long *)count + 1) * 2654435761u;
  for(long i = 0; holds && i < *(long *)count; i++) {
    struct toarmuts_outcome outcome;
    make_scenario(scenario);
    size_t names = (size_t)(put_applications(applications, scenario) - applications);
    size_t lines = (size_t)(put_script(script, scenario) - script);
    toarmuts_run(&defaults, (uint8_t *)applications, names, (uint8_t *)script, lines, by_run, 4 * MOST_TEXT, &outcome);
    size_t length = (size_t)(put_run(by_steps, scenario, &holds) - by_steps);
    holds = holds && outcome.status <= TOARMUTS_HALTED && length == outcome.length && memcmp(by_steps, by_run, length) == 0;
    if(!holds) {
      printf("run %ld of %ld:\n%.*s\n%.*s\n", i, *(long *)count, (int)names, applications, (int)lines, script);
    }
  }
  free(scenario);
  free(applications);
  free(script);
  free(by_steps);
  free(by_run);
  return holds ? NULL : count;
}

/* Half of the runs here, and the others in two threads at once. */
static void
check_runs(long count)
{
  long here = count / 2, there[2] = {count / 4, count / 4 + 1};
  pthread_t threads[2];
  void *differs[2];
  check("random runs", make_runs(&here) == NULL);
  for(int i = 0; i < 2; i++) {
    pthread_create(&threads[i], NULL, make_runs, &there[i]);
  }
  for(int i = 0; i < 2; i++) {
    pthread_join(threads[i], &differs[i]);
  }
  check("random runs in two threads", differs[0] == NULL && differs[1] == NULL);
}

int
main(int count, char **words)
{
  if(count == 2 && strcmp(words[1], "forget") == 0) {
    struct toarmuts_mote mote = closed_mote;
    return (int)toarmuts_open(&defaults, 1, &mote);
  }
  check_words();
  check_order();
  check_sent();
  check_halt();
  check_turns();
  check_bundled();
  check_calls(count > 1 ? atol(words[1]) : 1000);
  check_runs(count > 2 ? atol(words[2]) : 100);
  return conclude();
}
