/* A line on the serial line is passed on to all, from mote to mote. A mote that knows a message, by its origin and number, is silent. */
#include "contiki.h"
#include "net/netstack.h"
#include "net/nullnet/nullnet.h"
#include "sys/node-id.h"

enum { ORIGINS = 256, TEXT = 32 };

struct message {
  uint8_t origin;
  uint8_t number;
  char text[TEXT];
};

PROCESS(flooding, "Flooding");
AUTOSTART_PROCESSES(&flooding);

/* The last number that came from each origin. */
static uint8_t known[ORIGINS];

static void
pass_on(const struct message *message)
{
  static struct message sent;
  sent = *message;
  known[sent.origin] = sent.number;
  nullnet_buf = (uint8_t *)&sent;
  nullnet_len = (uint16_t)(2 + strlen(sent.text));
  NETSTACK_NETWORK.output(NULL);
}

static void
hear(const void *data, uint16_t len, const linkaddr_t *src, const linkaddr_t *dest)
{
  struct message message = {0};
  (void)dest;
  memcpy(&message, data, MIN(len, sizeof message - 1));
  if(message.number <= known[message.origin]) {
    return;
  }
  printf("%s, of %u by %u\n", message.text, message.origin, src->u8[7]);
  pass_on(&message);
}

PROCESS_THREAD(flooding, ev, data)
{
  static struct message first;

  PROCESS_BEGIN();
  nullnet_set_input_callback(hear);
  while(1) {
    PROCESS_WAIT_EVENT_UNTIL(ev == serial_line_event_message);
    first.origin = (uint8_t)node_id;
    first.number++;
    strncpy(first.text, data, sizeof first.text - 1);
    pass_on(&first);
  }
  PROCESS_END();
}
