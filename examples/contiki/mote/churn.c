/* The application churn of mote: 18 calls on all kinds of memory, whatever the answers are. */
#include "contiki.h"
#include "mote.h"

PROCESS(churn, "churn");
AUTOSTART_PROCESSES(&churn);

static const struct toarmuts_call calls[] = {
  {.kind = TOARMUTS_CALL_MMEM_ALLOC, .numbers = {0, 10}},
  {.kind = TOARMUTS_CALL_MMEM_ALLOC, .numbers = {1, 20}},
  {.kind = TOARMUTS_CALL_MMEM_ALLOC, .numbers = {2, 30}},
  {.kind = TOARMUTS_CALL_MMEM_WRITE, .numbers = {2, 0}, .length = 5, .bytes = "churn"},
  {.kind = TOARMUTS_CALL_MMEM_FREE, .numbers = {0}},
  {.kind = TOARMUTS_CALL_MMEM_READ, .numbers = {2, 0, 5}},
  {.kind = TOARMUTS_CALL_MMEM_AVAIL},
  {.kind = TOARMUTS_CALL_HEAP_ALLOC, .numbers = {0, 20}},
  {.kind = TOARMUTS_CALL_HEAP_ALLOC, .numbers = {1, 20}},
  {.kind = TOARMUTS_CALL_HEAP_FREE, .numbers = {0}},
  {.kind = TOARMUTS_CALL_HEAP_ALLOC, .numbers = {2, 4}},
  {.kind = TOARMUTS_CALL_HEAP_STATS},
  {.kind = TOARMUTS_CALL_MEMB_ALLOC, .numbers = {0}},
  {.kind = TOARMUTS_CALL_MEMB_ALLOC, .numbers = {0}},
  {.kind = TOARMUTS_CALL_LIST_ADD, .numbers = {0, 1}},
  {.kind = TOARMUTS_CALL_LIST_PUSH, .numbers = {0, 0}},
  {.kind = TOARMUTS_CALL_LIST_CHOP, .numbers = {0}},
  {.kind = TOARMUTS_CALL_MEMB_NUM_FREE, .numbers = {0}},
};

PROCESS_THREAD(churn, ev, data)
{
  PROCESS_BEGIN();

  for(size_t i = 0; i < sizeof calls / sizeof calls[0]; i++) {
    mote_call(&calls[i]);
  }
  while(1) {
    PROCESS_WAIT_EVENT();
  }

  PROCESS_END();
}
