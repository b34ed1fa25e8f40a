/* Frames by NullNet: the process that receives them is ended, and so is the one that is to follow it; the one that ends both does. */
#include "contiki.h"
#include "net/nullnet/nullnet.h"

PROCESS(first, "First");
PROCESS(second, "Second");
PROCESS(last, "Last");
AUTOSTART_PROCESSES(&first, &second, &last);

static void
received(const void *data, uint16_t len, const linkaddr_t *src, const linkaddr_t *dest)
{
  (void)data;
  (void)src;
  (void)dest;
  printf("%s: %u\n", PROCESS_CURRENT()->name, len);
}

PROCESS_THREAD(first, ev, data)
{
  PROCESS_BEGIN();

  nullnet_set_input_callback(received);
  while(1) {
    PROCESS_WAIT_EVENT();
  }

  PROCESS_END();
}

PROCESS_THREAD(second, ev, data)
{
  PROCESS_BEGIN();

  while(1) {
    PROCESS_WAIT_EVENT();
  }

  PROCESS_END();
}

PROCESS_THREAD(last, ev, data)
{
  PROCESS_BEGIN();

  PROCESS_WAIT_EVENT_UNTIL(ev == serial_line_event_message);
  process_exit(&first);
  process_exit(&second);
  while(1) {
    PROCESS_WAIT_EVENT();
  }

  PROCESS_END();
}
