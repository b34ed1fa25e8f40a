/* The application relay of mote: copies each frame into a managed block and sends that. NullNet would give the frame back first. */
#include "contiki.h"
#include "mote.h"

PROCESS(relay, "relay");
AUTOSTART_PROCESSES(&relay);

static bool
is_refused(const struct toarmuts_turn *answer)
{
  return answer->reply == TOARMUTS_REPLY_REFUSED;
}

/* Copies some of the frame's bytes. */
static bool
copy(uint32_t at, uint32_t length)
{
  const struct toarmuts_turn *answer = MOTE_ASK(TOARMUTS_CALL_PACKET_READ, at, length);
  struct toarmuts_call call = {.kind = TOARMUTS_CALL_MMEM_WRITE, .numbers = {0, at}, .length = length};
  if(is_refused(answer)) {
    return false;
  }
  memcpy(call.bytes, answer->bytes, length);
  return !is_refused(mote_call(&call));
}

static void
send_on(uint32_t length)
{
  if(!is_refused(MOTE_ASK(TOARMUTS_CALL_MMEM_ALLOC, 0, length))) {
    if(copy(0, MIN(length, 64)) && (length <= 64 || copy(64, length - 64))) {
      MOTE_ASK(TOARMUTS_CALL_PACKET_SEND, 0);
    }
    MOTE_ASK(TOARMUTS_CALL_MMEM_FREE, 0);
  }
  MOTE_ASK(TOARMUTS_CALL_PACKET_DONE, 0);
}

PROCESS_THREAD(relay, ev, data)
{
  PROCESS_BEGIN();

  MOTE_ASK(TOARMUTS_CALL_PACKET_OPEN, 0);
  while(1) {
    PROCESS_WAIT_EVENT_UNTIL(ev == 139);
    send_on((uint32_t)mote_told()->number);
  }

  PROCESS_END();
}
