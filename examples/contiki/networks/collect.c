/*
 * A collection tree. A line at mote 1, the root, has it send a beacon, which the others pass on: each one's parent is the mote with the
 * fewest hops to the root that it has heard. A line at another mote goes to its parent, and on to the root, which prints it.
 */
#include "contiki.h"
#include "net/netstack.h"
#include "net/nullnet/nullnet.h"
#include "sys/node-id.h"

enum { BEACON, REPORT, TEXT = 32, ROOT = 1 };

/* In a beacon `by` is its number, and `hops` those of its sender; in a report `by` is the mote that made it. */
struct message {
  uint8_t kind;
  uint8_t by;
  uint8_t hops;
  char text[TEXT];
};

PROCESS(collector, "Collector");
AUTOSTART_PROCESSES(&collector);

static linkaddr_t parent;
static uint8_t last_beacon, own_hops;

static void
send(const struct message *message, const linkaddr_t *receiver)
{
  static struct message sent;
  sent = *message;
  nullnet_buf = (uint8_t *)&sent;
  nullnet_len = (uint16_t)(offsetof(struct message, text) + strlen(sent.text));
  NETSTACK_NETWORK.output(receiver);
}

static void
send_beacon(void)
{
  send(&(struct message){.kind = BEACON, .by = last_beacon, .hops = own_hops}, NULL);
}

static void
take_beacon(const struct message *message, const linkaddr_t *src)
{
  bool is_new = message->by > last_beacon, is_nearer = message->by == last_beacon && message->hops + 1 < own_hops;
  if(node_id != ROOT && (is_new || is_nearer)) {
    linkaddr_copy(&parent, src);
    last_beacon = message->by;
    own_hops = (uint8_t)(message->hops + 1);
    printf("%u hops, by %u\n", own_hops, parent.u8[7]);
    send_beacon();
  }
}

static void
hear(const void *data, uint16_t len, const linkaddr_t *src, const linkaddr_t *dest)
{
  struct message message = {0};
  (void)dest;
  memcpy(&message, data, MIN(len, sizeof message - 1));
  if(message.kind == BEACON) {
    take_beacon(&message, src);
  } else if(node_id == ROOT) {
    printf("%u: %s, by %u\n", message.by, message.text, src->u8[7]);
  } else {
    send(&message, &parent);
  }
}

static void
report(const char *text)
{
  struct message message = {.kind = REPORT, .by = (uint8_t)node_id};
  if(linkaddr_cmp(&parent, &linkaddr_null)) {
    printf("no parent\n");
    return;
  }
  strncpy(message.text, text, TEXT - 1);
  send(&message, &parent);
}

PROCESS_THREAD(collector, ev, data)
{
  PROCESS_BEGIN();
  nullnet_set_input_callback(hear);
  while(1) {
    PROCESS_WAIT_EVENT_UNTIL(ev == serial_line_event_message);
    if(node_id == ROOT) {
      last_beacon++;
      send_beacon();
    } else {
      report(data);
    }
  }
  PROCESS_END();
}
