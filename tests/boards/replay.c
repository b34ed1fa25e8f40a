/*
 * replay FILE: a mote asked step by step makes a transcript once more. Each turn's call and each input is read from it, and what the
 * mote prints is written out, so the output is the transcript again where the mote behaves as it did. Its status is 97 where the stack
 * was too small.
 */
#include "../c/steps.h"
#include "startup.h"

/* A transcript of a sample, and a line. A part with 64 KB of RAM has no room for more, nor for buffers of stdio's. */
enum { ROOM = 1024 };
static char transcript[ROOM];
static uint8_t shown[640];

/* From board.ld. */
extern uint8_t stack_low[], stack_top[];

/* As the proved side has it on every processor. */
_Static_assert(_Alignof(struct toarmuts_mote) == 8 && offsetof(struct toarmuts_mote, is_open) == 8, "a pointer has a slot of 8 bytes");
_Static_assert(_Alignof(struct toarmuts_outcome) == 8 && offsetof(struct toarmuts_outcome, length) == 16, "lengths have 64 bits");

/* Reads hex digits up to a blank or a line's end. */
static uint32_t
read_bytes(const char *text, uint8_t *bytes)
{
  uint32_t length = 0;
  unsigned byte;
  while(sscanf(text + 2 * length, "%2x", &byte) == 1 && text[2 * length] != ' ') {
    bytes[length++] = (uint8_t)byte;
  }
  return length;
}

/* A part of a call: a number, bytes, or a payload, which is -, a number, or x and bytes. */
static void
read_part(struct toarmuts_call *call, char part, int *number, const char *word)
{
  if(part == 'b' || part == 'n') {
    call->numbers[(*number)++] = (uint32_t)strtoul(word, NULL, 10);
  } else if(part == 'x') {
    call->length = *word == '-' ? 0 : read_bytes(word, call->bytes);
  } else if(*word == 'x') {
    call->payload = TOARMUTS_LINE;
    call->length = read_bytes(word + 1, call->bytes);
  } else if(*word != '-') {
    call->payload = TOARMUTS_NUMBER;
    call->number = (uint32_t)strtoul(word, NULL, 10);
  }
}

/* The call that follows the arrow of a transcript's line; kind 0 where there is none. */
static struct toarmuts_call
read_call(const char *line)
{
  struct toarmuts_call call;
  const char *word = strstr(line, " -> ");
  int number = 0;
  memset(&call, 0, sizeof call);
  if(word == NULL) {
    return call;
  }
  word += 4;
  size_t length = strcspn(word, " ");
  for(uint32_t kind = 1; kind < KINDS; kind++) {
    if(strlen(kinds[kind].word) == length && strncmp(kinds[kind].word, word, length) == 0) {
      call.kind = kind;
    }
  }
  for(const char *part = kinds[call.kind].parts; call.kind != 0 && *part != 0; part++) {
    word += strcspn(word, " ") + 1;
    read_part(&call, *part, &number, word);
  }
  return call;
}

/* Reads the transcript, its line ends made string ends. Returns its length; 0 where there is no room for it. */
static size_t
read_transcript(const char *name)
{
  FILE *file = fopen(name, "rb");
  size_t length = 0;
  if(file != NULL) {
    setvbuf(file, NULL, _IONBF, 0);
    length = fread(transcript, 1, sizeof transcript - 1, file);
    fclose(file);
  }
  for(size_t i = 0; i < length; i++) {
    transcript[i] = transcript[i] == '\n' ? '\0' : transcript[i];
  }
  return length < sizeof transcript - 1 ? length : 0;
}

/* How many applications a transcript has: the boot starts them, as processes 4, 5, .. */
static uint32_t
count_applications(size_t length)
{
  uint32_t count = 0;
  for(const char *line = transcript; line < transcript + length; line += strlen(line) + 1) {
    uint32_t process = (uint32_t)strtoul(line, NULL, 10);
    count = process >= 4 && process - 3 > count ? process - 3 : count;
  }
  return count;
}

int
main(int count, char **words)
{
  struct toarmuts_configuration sizes = TOARMUTS_DEFAULTS;
  struct toarmuts_mote mote;
  struct toarmuts_turn turn;
  uint32_t step = TOARMUTS_REST;
  size_t length = count == 2 ? read_transcript(words[1]) : 0;
  const char *next = transcript;
  memset(&mote, 0, sizeof mote);
  setvbuf(stdout, NULL, _IONBF, 0);
  if(length == 0 || toarmuts_open(&sizes, count_applications(length), &mote) != TOARMUTS_DONE) {
    return 98;
  }
  while(toarmuts_next(&mote, &step, &turn) == TOARMUTS_DONE && step != TOARMUTS_STEP_HALTED) {
    uint64_t told = 0;
    if(step == TOARMUTS_REST && (next >= transcript + length || toarmuts_feed(&mote, (const uint8_t *)next + 2, strlen(next) - 2) != 0)) {
      break;
    } else if(step == TOARMUTS_REST) {
      continue;
    } else if(step == TOARMUTS_TURN) {
      struct toarmuts_call call = read_call(next);
      if(toarmuts_submit(&mote, &call) != TOARMUTS_DONE) {
        break;
      }
    }
    toarmuts_line(&mote, shown, sizeof shown, &told);
    printf("%.*s\n", (int)told, (const char *)shown);
    next += strlen(next) + 1;
  }
  if(board_stack_used() == (size_t)(stack_top - stack_low)) {
    /* It may have written over variables. */
    return 97;
  }
  return (int)toarmuts_close(&mote);
}
