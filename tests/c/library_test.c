/* Runs by the library: worked outcomes, and as many calls with random arguments as the first word says. The room ends where the
 * sanitizer's does, so that nothing outside it is touched unseen. */
#include "check.h"
#include "toarmuts.h"

#include <stdlib.h>
#include <string.h>

#define FOUR "hello\nhello\nhello\nhello\n"
#define SIXTEEN FOUR FOUR FOUR FOUR

static struct toarmuts_outcome
run(struct toarmuts_configuration configuration, const char *applications, const char *script, uint8_t *transcript, size_t room)
{
  struct toarmuts_outcome outcome;
  toarmuts_run(&configuration, (const uint8_t *)applications, strlen(applications), (const uint8_t *)script, strlen(script), transcript,
               room, &outcome);
  return outcome;
}

/* Why there is no run of these, and of what the outcome tells. */
struct refused {
  struct toarmuts_configuration configuration;
  const char *applications;
  uint32_t status;
  uint32_t reason;
  uint32_t application;
  size_t call;
};

#define USUAL               \
  {                         \
    4096, 4096, 16, 0, 0, 0 \
  }
#define BAD          \
  {                  \
    6, 6, 6, 1, 6, 0 \
  }

/* Each reason, and where two apply the first. No room has any of them. */
static const struct refused refused[] = {
  {USUAL, "\xff", TOARMUTS_NOT_TEXT, TOARMUTS_REASON_NONE, 0, 0},
  {USUAL, "nobody", TOARMUTS_NO_APPLICATION, TOARMUTS_REASON_NAME, 0, 0},
  {USUAL, "hello\n\nblink", TOARMUTS_NO_APPLICATION, TOARMUTS_REASON_NAME, 1, 0},
  {USUAL, "hello\ncall wait", TOARMUTS_NO_APPLICATION, TOARMUTS_REASON_NAME, 1, 0},
  {USUAL, "calls frob", TOARMUTS_NO_APPLICATION, TOARMUTS_REASON_CALL, 0, 0},
  {USUAL, "calls wait, ", TOARMUTS_NO_APPLICATION, TOARMUTS_REASON_CALL, 0, 1},
  {USUAL, "calls wait,exit", TOARMUTS_NO_APPLICATION, TOARMUTS_REASON_CALL, 0, 0},
  {USUAL, "hello\ncalls wait, 3 clock, frob 1, kill", TOARMUTS_NO_APPLICATION, TOARMUTS_REASON_CALL, 1, 2},
  {USUAL, "calls wait\ncalls wait, kill, frob", TOARMUTS_NO_APPLICATION, TOARMUTS_REASON_FEW_WORDS, 1, 1},
  {USUAL, "calls exit, kill 4 5", TOARMUTS_NO_APPLICATION, TOARMUTS_REASON_MANY_WORDS, 0, 1},
  {USUAL, "calls poll 255, poll 256", TOARMUTS_NO_APPLICATION, TOARMUTS_REASON_NUMBER, 0, 1},
  {USUAL, "calls timer-set 0 05", TOARMUTS_NO_APPLICATION, TOARMUTS_REASON_NUMBER, 0, 0},
  {USUAL, "calls wait, 0 wait", TOARMUTS_NO_APPLICATION, TOARMUTS_REASON_NUMBER, 0, 1},
  {USUAL, "calls print 6", TOARMUTS_NO_APPLICATION, TOARMUTS_REASON_HEX, 0, 0},
  {USUAL, "calls wait, wait, post 4 140 x0g", TOARMUTS_NO_APPLICATION, TOARMUTS_REASON_HEX, 0, 2},
  {USUAL, "calls 128 wait, exit", TOARMUTS_NO_APPLICATION, TOARMUTS_REASON_MANY_CALLS, 0, 0},
  {USUAL, "calls 128 wait, exit, frob", TOARMUTS_NO_APPLICATION, TOARMUTS_REASON_CALL, 0, 2},
  {USUAL, "\n\n\n\n\n\n\n\n\n\n\n\n\n\n\n\n\n", TOARMUTS_NO_APPLICATION, TOARMUTS_REASON_NAME, 0, 0},
  {USUAL, FOUR FOUR FOUR "hello\nhello\nhello\nnobody\nnobody", TOARMUTS_NO_APPLICATION, TOARMUTS_REASON_NAME, 15, 0},
  {USUAL, SIXTEEN "hello", TOARMUTS_TOO_MANY_APPLICATIONS, TOARMUTS_REASON_NONE, 16, 0},
  {USUAL, "nobody\n\xff", TOARMUTS_NOT_TEXT, TOARMUTS_REASON_NONE, 0, 0},
  {USUAL, SIXTEEN "hello\n\xff", TOARMUTS_NOT_TEXT, TOARMUTS_REASON_NONE, 0, 0},
  {BAD, "\xff", TOARMUTS_NOT_TEXT, TOARMUTS_REASON_NONE, 0, 0},
  {USUAL, "hello\nnobody\ncalls nothing", TOARMUTS_NO_APPLICATION, TOARMUTS_REASON_NAME, 1, 0},
  {USUAL, "hello\nhello\ncalls kill 256\nnobody", TOARMUTS_NO_APPLICATION, TOARMUTS_REASON_NUMBER, 2, 0},
  {USUAL, "hello\nnobody\n" SIXTEEN, TOARMUTS_NO_APPLICATION, TOARMUTS_REASON_NAME, 1, 0},
  {USUAL, SIXTEEN "nobody", TOARMUTS_TOO_MANY_APPLICATIONS, TOARMUTS_REASON_NONE, 16, 0},
  {BAD, SIXTEEN "hello", TOARMUTS_TOO_MANY_APPLICATIONS, TOARMUTS_REASON_NONE, 16, 0},
  {BAD, "nobody", TOARMUTS_NO_APPLICATION, TOARMUTS_REASON_NAME, 0, 0},
  {BAD, "hello", TOARMUTS_BAD_SIZES, TOARMUTS_REASON_MMEM, 0, 0},
  {{0, 4096, 16, 0, 0, 0}, "", TOARMUTS_BAD_SIZES, TOARMUTS_REASON_MMEM, 0, 0},
  {{65540, 4096, 16, 0, 0, 0}, "", TOARMUTS_BAD_SIZES, TOARMUTS_REASON_MMEM, 0, 0},
  {{4, 16, 6, 1, 6, 0}, "hello", TOARMUTS_BAD_SIZES, TOARMUTS_REASON_HEAP, 0, 0},
  {{65536, 65536, 12, 1, 6, 0}, "hello", TOARMUTS_BAD_SIZES, TOARMUTS_REASON_HEADER, 0, 0},
  {{4096, 20, 8, 1, 6, 0}, "hello", TOARMUTS_BAD_SIZES, TOARMUTS_REASON_QUOTA, 0, 0},
  {{4096, 20, 8, 1, 0, 0}, "", TOARMUTS_BAD_SIZES, TOARMUTS_REASON_QUOTA, 0, 0},
  {{4096, 20, 8, 1, 65540, 0}, "", TOARMUTS_BAD_SIZES, TOARMUTS_REASON_QUOTA, 0, 0},
  {{4096, 20, 8, 1, 2052, 0}, "hello", TOARMUTS_BAD_SIZES, TOARMUTS_REASON_ALL_QUOTAS, 0, 0},
  {{4096, 20, 8, 1, 65536, 0}, "", TOARMUTS_BAD_SIZES, TOARMUTS_REASON_ALL_QUOTAS, 0, 0},
};

static bool
tells_no_reason(const struct toarmuts_outcome *outcome)
{
  return outcome->reason == TOARMUTS_REASON_NONE && outcome->application == 0 && outcome->call == 0;
}

static void
check_reasons(void)
{
  uint8_t transcript[1];
  for(size_t i = 0; i < sizeof refused / sizeof refused[0]; i++) {
    struct toarmuts_outcome outcome = run(refused[i].configuration, refused[i].applications, "", transcript, 0);
    uint64_t line = refused[i].status == TOARMUTS_NO_APPLICATION ? refused[i].application + 1 : 0;
    bool holds = outcome.status == refused[i].status && outcome.reason == refused[i].reason && outcome.length == 0 &&
                 outcome.line == line && outcome.application == refused[i].application && outcome.call == refused[i].call;
    if(!holds) {
      printf("%s: status %u, reason %u, application %u, call %u\n", refused[i].applications, (unsigned)outcome.status,
             (unsigned)outcome.reason, (unsigned)outcome.application, (unsigned)outcome.call);
    }
    check("a reason", holds);
  }
}

static void
check_outcomes(void)
{
  struct toarmuts_configuration defaults = TOARMUTS_DEFAULTS;
  uint8_t transcript[200];
  struct toarmuts_outcome outcome = run(defaults, "calls exit", "", transcript, sizeof transcript);
  const char *text = "4 synch 129 - -> exit\n";
  check("a run", outcome.status == TOARMUTS_FINISHED && outcome.length == strlen(text) && memcmp(transcript, text, outcome.length) == 0 &&
                   tells_no_reason(&outcome));
  check("just the room", run(defaults, "calls exit", "", transcript, outcome.length).status == TOARMUTS_FINISHED);
  outcome = run(defaults, "calls exit", "", transcript, outcome.length - 1);
  check("no room", outcome.status == TOARMUTS_NO_ROOM && outcome.length == strlen(text) && outcome.line == 0 && tells_no_reason(&outcome));
  outcome = run(defaults, "", "tick 1\ntock\n", transcript, strlen("> tick 1\n"));
  check("no room for a bad line", outcome.status == TOARMUTS_NO_ROOM && outcome.length == strlen("> tick 1\nbad line 2\n") &&
                                    outcome.line == 0 && tells_no_reason(&outcome));
  outcome = run(defaults, "", "tick 1\ntock\n", transcript, sizeof transcript);
  check("bad line", outcome.status == TOARMUTS_BAD_LINE && outcome.line == 2 && tells_no_reason(&outcome));
  outcome = run(defaults, "hello\nnobody", "", transcript, sizeof transcript);
  check("no application", outcome.status == TOARMUTS_NO_APPLICATION && outcome.line == 2 && outcome.length == 0);
}

/* Appends a random piece, and returns the length. */
static size_t
append(char *text, size_t length, const char *const *pieces, size_t count)
{
  const char *piece = pieces[next_random() % count];
  size_t size = strlen(piece);
  memcpy(text + length, piece, size);
  return length + size;
}

static uint32_t
random_size(void)
{
  return next_random() % 8 == 0 ? next_random() : next_random() % 64 * 4;
}

static bool
is_answered(void)
{
  static const char *const applications[] = {
    "hello",           "blink\n",        "echo\n",        "relay\n",    "churn\n", "ping\n", "calls ", "wait, ", "3 clock, ",
    "mmem-alloc 1 20", "memb-alloc 0, ", "timer-set 0 5", "print 6869", "exit",    "\n",     "\xff",   "x",      ""};
  static const char *const scripts[] = {"tick 5\n", "tick 70\n", "serial 680a\n", "frame 0102\n", "# a\n", "\n", "tick", "\xff", "9", ""};
  char lines[256], script[256];
  size_t lines_length = 0, script_length = 0, room = next_random() % 300;
  struct toarmuts_configuration configuration = {random_size(),     random_size(), next_random() % 4 * 8,
                                                 next_random() % 2, random_size(), next_random() % 2};
  struct toarmuts_outcome outcome;
  for(uint32_t left = next_random() % 8; left > 0; left--) {
    lines_length = append(lines, lines_length, applications, sizeof applications / sizeof applications[0]);
    script_length = append(script, script_length, scripts, sizeof scripts / sizeof scripts[0]);
  }
  uint8_t *transcript = malloc(room + 1);
  memset(transcript, 0xaa, room + 1);
  toarmuts_run(&configuration, (uint8_t *)lines, lines_length, (uint8_t *)script, script_length, transcript, room, &outcome);
  size_t written = outcome.status <= TOARMUTS_TOO_LONG ? outcome.length : 0;
  bool holds = outcome.status <= TOARMUTS_OUT_OF_MEMORY && written <= room;
  for(size_t i = written; holds && i <= room; i++) {
    holds = transcript[i] == 0xaa;
  }
  free(transcript);
  return holds;
}

int
main(int count, char **words)
{
  bool holds = true;
  long calls = count > 1 ? atol(words[1]) : 1000;
  check_outcomes();
  check_reasons();
  while(holds && calls-- > 0) {
    holds = is_answered();
  }
  check("random calls", holds);
  return conclude();
}
