/*
 * The application echo of mote: prints each line of the serial line, without its end. An empty line is printed too, and bytes 0,
 * which printf can't say: so it makes the mote's own call.
 */
#include "contiki.h"
#include "dev/serial-line.h"
#include "mote.h"

PROCESS(echo, "echo");
AUTOSTART_PROCESSES(&echo);

static void
print(const void *bytes, uint32_t length)
{
  struct toarmuts_call call = {.kind = TOARMUTS_CALL_PRINT, .length = length};
  memcpy(call.bytes, bytes, length);
  mote_call(&call);
}

PROCESS_THREAD(echo, ev, data)
{
  PROCESS_BEGIN();

  while(1) {
    uint32_t length;
    PROCESS_WAIT_EVENT_UNTIL(ev == serial_line_event_message);
    length = mote_told()->length;
    print(data, MIN(length, 64));
    if(length > 64) {
      print((char *)data + 64, length - 64);
    }
  }

  PROCESS_END();
}
