/* What the programs share that ask motes step by step: calls with their words as a transcript shows them, applications that are lists of
 * calls, and bundled ones. */
#ifndef STEPS_H
#define STEPS_H

#include "check.h"
#include "toarmuts.h"

#include <stdlib.h>
#include <string.h>

/* The words of the calls, and what follows each: b a number that fits in a byte, n a number, x bytes, p a payload. */
static const struct kind {
  const char *word;
  const char *parts;
} kinds[] = {
  [TOARMUTS_CALL_POST] = {"post", "bbp"},
  [TOARMUTS_CALL_BROADCAST] = {"broadcast", "bp"},
  [TOARMUTS_CALL_POST_SYNCH] = {"post-synch", "bbp"},
  [TOARMUTS_CALL_POLL] = {"poll", "b"},
  [TOARMUTS_CALL_START] = {"start", "b"},
  [TOARMUTS_CALL_KILL] = {"kill", "b"},
  [TOARMUTS_CALL_IS_RUNNING] = {"is-running", "b"},
  [TOARMUTS_CALL_ALLOC_EVENT] = {"alloc-event", ""},
  [TOARMUTS_CALL_TIMER_SET] = {"timer-set", "bn"},
  [TOARMUTS_CALL_TIMER_STOP] = {"timer-stop", "b"},
  [TOARMUTS_CALL_TIMER_RESET] = {"timer-reset", "b"},
  [TOARMUTS_CALL_TIMER_RESTART] = {"timer-restart", "b"},
  [TOARMUTS_CALL_TIMER_EXPIRED] = {"timer-expired", "b"},
  [TOARMUTS_CALL_CALLBACK_SET] = {"callback-set", "bn"},
  [TOARMUTS_CALL_CALLBACK_STOP] = {"callback-stop", "b"},
  [TOARMUTS_CALL_CLOCK] = {"clock", ""},
  [TOARMUTS_CALL_PRINT] = {"print", "x"},
  [TOARMUTS_CALL_WAIT] = {"wait", ""},
  [TOARMUTS_CALL_EXIT] = {"exit", ""},
  [TOARMUTS_CALL_MMEM_ALLOC] = {"mmem-alloc", "bn"},
  [TOARMUTS_CALL_MMEM_FREE] = {"mmem-free", "b"},
  [TOARMUTS_CALL_MMEM_WRITE] = {"mmem-write", "bnx"},
  [TOARMUTS_CALL_MMEM_READ] = {"mmem-read", "bnb"},
  [TOARMUTS_CALL_MMEM_COPY] = {"mmem-copy", "bb"},
  [TOARMUTS_CALL_MMEM_AVAIL] = {"mmem-avail", ""},
  [TOARMUTS_CALL_HEAP_ALLOC] = {"heap-alloc", "bn"},
  [TOARMUTS_CALL_HEAP_REALLOC] = {"heap-realloc", "bn"},
  [TOARMUTS_CALL_HEAP_FREE] = {"heap-free", "b"},
  [TOARMUTS_CALL_HEAP_WRITE] = {"heap-write", "bnx"},
  [TOARMUTS_CALL_HEAP_READ] = {"heap-read", "bnb"},
  [TOARMUTS_CALL_HEAP_STATS] = {"heap-stats", ""},
  [TOARMUTS_CALL_MEMB_ALLOC] = {"memb-alloc", "b"},
  [TOARMUTS_CALL_MEMB_FREE] = {"memb-free", "bb"},
  [TOARMUTS_CALL_MEMB_WRITE] = {"memb-write", "bbnx"},
  [TOARMUTS_CALL_MEMB_READ] = {"memb-read", "bbnb"},
  [TOARMUTS_CALL_MEMB_NUM_FREE] = {"memb-num-free", "b"},
  [TOARMUTS_CALL_LIST_ADD] = {"list-add", "bb"},
  [TOARMUTS_CALL_LIST_PUSH] = {"list-push", "bb"},
  [TOARMUTS_CALL_LIST_INSERT] = {"list-insert", "bbb"},
  [TOARMUTS_CALL_LIST_POP] = {"list-pop", "b"},
  [TOARMUTS_CALL_LIST_CHOP] = {"list-chop", "b"},
  [TOARMUTS_CALL_LIST_REMOVE] = {"list-remove", "bb"},
  [TOARMUTS_CALL_LIST_HEAD] = {"list-head", "b"},
  [TOARMUTS_CALL_LIST_NEXT] = {"list-next", "bb"},
  [TOARMUTS_CALL_LIST_LENGTH] = {"list-length", "b"},
  [TOARMUTS_CALL_PACKET_OPEN] = {"packet-open", ""},
  [TOARMUTS_CALL_PACKET_READ] = {"packet-read", "nb"},
  [TOARMUTS_CALL_PACKET_DONE] = {"packet-done", ""},
  [TOARMUTS_CALL_PACKET_COUNT] = {"packet-count", ""},
  [TOARMUTS_CALL_PACKET_SEND] = {"packet-send", "b"},
};

enum { KINDS = sizeof kinds / sizeof kinds[0] };

/* Whether a struct says a call, by the rules of toarmuts.h. */
static inline bool
is_call(const struct toarmuts_call *call)
{
  int number = 0;
  if(call->kind == 0 || call->kind >= KINDS) {
    return false;
  }
  for(const char *part = kinds[call->kind].parts; *part != 0; part++) {
    if(*part == 'x' && call->length > 64) {
      return false;
    }
    if(*part == 'p' && (call->payload > TOARMUTS_LINE || (call->payload == TOARMUTS_LINE && call->length > 127))) {
      return false;
    }
    if(*part == 'b' && call->numbers[number] > 255) {
      return false;
    }
    number += *part == 'b' || *part == 'n';
  }
  return true;
}

static inline char *
put_hex(char *text, const uint8_t *bytes, size_t length)
{
  for(size_t i = 0; i < length; i++) {
    text += sprintf(text, "%02x", bytes[i]);
  }
  return text;
}

/* Appends the words of a call, as a transcript shows them, and answers where they end. */
static inline char *
put_call(char *text, const struct toarmuts_call *call)
{
  const uint32_t *number = call->numbers;
  text += sprintf(text, "%s", kinds[call->kind].word);
  for(const char *part = kinds[call->kind].parts; *part != 0; part++) {
    *text++ = ' ';
    if(*part == 'b' || *part == 'n') {
      text += sprintf(text, "%u", (unsigned)*number++);
    } else if(*part == 'p' && call->payload == TOARMUTS_NUMBER) {
      text += sprintf(text, "%u", (unsigned)call->number);
    } else if(*part == 'p' && call->payload == TOARMUTS_LINE) {
      *text++ = 'x';
      text = put_hex(text, call->bytes, call->length);
    } else if(*part == 'p' || call->length == 0) {
      *text++ = '-';
    } else {
      text = put_hex(text, call->bytes, call->length);
    }
  }
  *text = 0;
  return text;
}

/* A call whose numbers are mostly small, so that it is often carried out. */
static inline struct toarmuts_call
random_call(void)
{
  struct toarmuts_call call;
  memset(&call, (int)random_below(256), sizeof call);
  call.kind = random_below(3) == 0 ? TOARMUTS_CALL_WAIT : 1 + random_below(KINDS - 1);
  for(int i = 0; i < 4; i++) {
    call.numbers[i] = random_below(12) == 0 ? random_below(256) : random_below(6);
  }
  if(strchr(kinds[call.kind].parts, 'p') != NULL && random_below(2) == 0) {
    call.numbers[call.kind != TOARMUTS_CALL_BROADCAST] = TOARMUTS_EVENT_CONTINUE + random_below(9);
  }
  call.payload = random_below(3);
  call.number = random_below(9);
  call.length = random_below(20);
  for(uint32_t i = 0; i < call.length; i++) {
    call.bytes[i] = (uint8_t)random_below(256);
  }
  return call;
}

/* The names of the bundled applications, by their kinds. */
static const char *const names[] = {
  [TOARMUTS_APPLICATION_HELLO] = "hello", [TOARMUTS_APPLICATION_BLINK] = "blink", [TOARMUTS_APPLICATION_ECHO] = "echo",
  [TOARMUTS_APPLICATION_RELAY] = "relay", [TOARMUTS_APPLICATION_CHURN] = "churn", [TOARMUTS_APPLICATION_PING] = "ping",
};

enum { NAMES = sizeof names / sizeof names[0] };

/* An application of some kind as before its start, or of kind 0. */
static inline struct toarmuts_application
fresh_application(void)
{
  return (struct toarmuts_application){.kind = random_below(NAMES)};
}

/* A struct of any numbers, of which many say an application. */
static inline struct toarmuts_application
any_application(void)
{
  struct toarmuts_application application;
  memset(&application, (int)random_below(256), sizeof application);
  application.kind = random_below(NAMES + 1);
  for(int i = 0; i < 4; i++) {
    application.numbers[i] = random_below(random_below(4) == 0 ? 300 : 10);
  }
  application.length = random_below(70);
  return application;
}

/* Whether a struct says an application. */
static inline bool
is_application(const struct toarmuts_application *application)
{
  const uint32_t *number = application->numbers;
  switch(application->kind) {
  case TOARMUTS_APPLICATION_HELLO:
  case TOARMUTS_APPLICATION_BLINK:
    return true;
  case TOARMUTS_APPLICATION_ECHO:
    return application->length <= 64;
  case TOARMUTS_APPLICATION_RELAY:
    return number[0] <= 8 && number[1] <= 255;
  case TOARMUTS_APPLICATION_CHURN:
    return number[0] == 0 || number[1] <= 255;
  case TOARMUTS_APPLICATION_PING:
    return number[0] <= 2 && (number[2] == 0 || number[3] <= 255);
  default:
    return false;
  }
}

#endif
