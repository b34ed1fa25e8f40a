/*
 * Eight processes that go through lists of calls, as the applications `calls ..` of docs/scenarios.md: one call each time that
 * they are told something, and then they wait. The file that LISTS names has a line for each process.
 */
#include "contiki.h"
#include "mote.h"

#include <ctype.h>
#include <stdlib.h>

enum { PROCESSES = 8, CALLS = 128 };

PROCESS(first, "first");
PROCESS(second, "second");
PROCESS(third, "third");
PROCESS(fourth, "fourth");
PROCESS(fifth, "fifth");
PROCESS(sixth, "sixth");
PROCESS(seventh, "seventh");
PROCESS(eighth, "eighth");
AUTOSTART_PROCESSES(&first, &second, &third, &fourth, &fifth, &sixth, &seventh, &eighth);

struct list {
  struct toarmuts_call calls[CALLS];
  size_t length;
  size_t place;
};

static struct list lists[PROCESSES];

/* The words of the calls in the order of their kinds, from 1 on; how many numbers follow, and b for bytes, p for a payload. */
static const struct {
  const char *word;
  unsigned numbers;
  char last;
} kinds[] = {
  {"post", 2, 'p'},        {"broadcast", 1, 'p'},   {"post-synch", 2, 'p'},  {"poll", 1, 0},         {"start", 1, 0},
  {"kill", 1, 0},          {"is-running", 1, 0},    {"alloc-event", 0, 0},   {"timer-set", 2, 0},    {"timer-stop", 1, 0},
  {"timer-reset", 1, 0},   {"timer-restart", 1, 0}, {"timer-expired", 1, 0}, {"callback-set", 2, 0}, {"callback-stop", 1, 0},
  {"clock", 0, 0},         {"print", 0, 'b'},       {"wait", 0, 0},          {"exit", 0, 0},         {"mmem-alloc", 2, 0},
  {"mmem-free", 1, 0},     {"mmem-write", 2, 'b'},  {"mmem-read", 3, 0},     {"mmem-copy", 2, 0},    {"mmem-avail", 0, 0},
  {"heap-alloc", 2, 0},    {"heap-realloc", 2, 0},  {"heap-free", 1, 0},     {"heap-write", 2, 'b'}, {"heap-read", 3, 0},
  {"heap-stats", 0, 0},    {"memb-alloc", 1, 0},    {"memb-free", 2, 0},     {"memb-write", 3, 'b'}, {"memb-read", 4, 0},
  {"memb-num-free", 1, 0}, {"list-add", 2, 0},      {"list-push", 2, 0},     {"list-insert", 3, 0},  {"list-pop", 1, 0},
  {"list-chop", 1, 0},     {"list-remove", 2, 0},   {"list-head", 1, 0},     {"list-next", 2, 0},    {"list-length", 1, 0},
  {"packet-open", 0, 0},   {"packet-read", 2, 0},   {"packet-done", 0, 0},   {"packet-count", 0, 0}, {"packet-send", 1, 0},
};

static uint32_t
read_hex(uint8_t *bytes, const char *digits)
{
  uint32_t length = 0;
  while(isxdigit((unsigned char)digits[0])) {
    char pair[3] = {digits[0], digits[1], '\0'};
    bytes[length++] = (uint8_t)strtoul(pair, NULL, 16);
    digits += 2;
  }
  return length;
}

static void
read_last(struct toarmuts_call *call, char kind, const char *word)
{
  if(kind == 'b' || *word == 'x') {
    call->length = read_hex(call->bytes, word + (*word == 'x'));
  }
  if(kind == 'p') {
    call->payload = *word == '-' ? TOARMUTS_EMPTY : *word == 'x' ? TOARMUTS_LINE : TOARMUTS_NUMBER;
    call->number = call->payload == TOARMUTS_NUMBER ? (uint32_t)strtoul(word, NULL, 10) : 0;
  }
}

/* Reads a call as a transcript shows it. */
static void
read_call(struct toarmuts_call *call, const char *text)
{
  char word[20];
  int length;
  sscanf(text, " %19s%n", word, &length);
  while(strcmp(kinds[call->kind].word, word) != 0) {
    call->kind++;
  }
  for(unsigned i = 0; i < kinds[call->kind].numbers; i++) {
    char *end;
    call->numbers[i] = (uint32_t)strtoul(text + length, &end, 10);
    length = (int)(end - text);
  }
  if(kinds[call->kind].last != 0) {
    read_last(call, kinds[call->kind].last, text + length + 1);
  }
  call->kind++;
}

static void
read_lists(void)
{
  static char line[1 << 16];
  FILE *file = fopen(getenv("LISTS"), "r");
  for(unsigned i = 0; file != NULL && i < PROCESSES && fgets(line, sizeof line, file) != NULL; i++) {
    for(char *text = strtok(line, ",\n"); text != NULL; text = strtok(NULL, ",\n")) {
      read_call(&lists[i].calls[lists[i].length++], text);
    }
  }
  if(file != NULL) {
    fclose(file);
  }
}

/* Makes calls up to the next wait or exit. */
static char
go_on(void)
{
  struct list *list;
  static bool has_read;
  if(!has_read) {
    read_lists();
    has_read = true;
  }
  list = &lists[mote_told()->process - 4];
  while(list->place < list->length) {
    const struct toarmuts_call *call = &list->calls[list->place++];
    if(call->kind == TOARMUTS_CALL_WAIT || call->kind == TOARMUTS_CALL_EXIT) {
      return call->kind == TOARMUTS_CALL_WAIT ? PT_WAITING : PT_EXITED;
    }
    mote_call(call);
  }
  return PT_WAITING;
}

#define GOES_THROUGH_ITS_LIST(name) \
  PROCESS_THREAD(name, ev, data)    \
  {                                 \
    (void)process_pt;               \
    return go_on();                 \
  }

GOES_THROUGH_ITS_LIST(first)
GOES_THROUGH_ITS_LIST(second)
GOES_THROUGH_ITS_LIST(third)
GOES_THROUGH_ITS_LIST(fourth)
GOES_THROUGH_ITS_LIST(fifth)
GOES_THROUGH_ITS_LIST(sixth)
GOES_THROUGH_ITS_LIST(seventh)
GOES_THROUGH_ITS_LIST(eighth)
