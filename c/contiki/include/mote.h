/*
 * The calls of the mote, for programs that need one for which Contiki-NG has no name, or the same transcript as an application in
 * Rattle, call by call. docs/library.md explains toarmuts.h, docs/profile.md the calls.
 */
#ifndef MOTE_H_
#define MOTE_H_

#include "toarmuts.h"

/*
 * Makes a call in the present activation and returns the reply, which is valid until the next call. Processes that receive something
 * meanwhile run within it. For `wait` and `exit` return from the thread instead.
 */
const struct toarmuts_turn *mote_call(const struct toarmuts_call *call);

/* A call that has only numbers: its bytes aren't written. */
static inline void
mote_put_numbers(struct toarmuts_call *call, uint32_t kind, const uint32_t numbers[4])
{
  call->kind = kind;
  for(unsigned i = 0; i < 4; i++) {
    call->numbers[i] = numbers[i];
  }
  call->payload = TOARMUTS_EMPTY;
  call->number = 0;
  call->length = 0;
}

static inline const struct toarmuts_turn *
mote_ask(uint32_t kind, const uint32_t numbers[4])
{
  struct toarmuts_call call;
  mote_put_numbers(&call, kind, numbers);
  return mote_call(&call);
}

/* The same for a call that has only numbers, as MOTE_ASK(TOARMUTS_CALL_LIST_ADD, 0, 3). A call without numbers has a 0 here. */
#define MOTE_ASK(call_kind, ...) mote_ask((call_kind), (const uint32_t[4]){__VA_ARGS__})

/* The event or callback that the process received in the present activation. */
const struct toarmuts_turn *mote_told(void);

#endif
