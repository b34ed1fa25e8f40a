/* Stop and wait: a line is sent again and again until it is acknowledged; lines meanwhile are held back, up to four. */
#include "contiki.h"
#include "net/netstack.h"
#include "net/nullnet/nullnet.h"

enum { LINES = 4, TEXT = 16, PATIENCE = 10 };

PROCESS(sender, "Sender");
AUTOSTART_PROCESSES(&sender);

static const linkaddr_t receiver = {{0, 2, 0, 2, 0, 2, 0, 2}};
static char held[LINES][TEXT];
static unsigned first, count;

/* The number of the line that is under way, and its frame. */
static uint8_t number = 1, frame[1 + TEXT];
static struct etimer timer;

static void
send_first(void)
{
  frame[0] = number;
  strcpy((char *)frame + 1, held[first]);
  nullnet_buf = frame;
  nullnet_len = (uint16_t)(1 + strlen(held[first]));
  NETSTACK_NETWORK.output(&receiver);
  etimer_set(&timer, PATIENCE);
}

static void
hear(const void *data, uint16_t len, const linkaddr_t *src, const linkaddr_t *dest)
{
  (void)dest;
  if(count == 0 || len != 1 || *(const uint8_t *)data != number || !linkaddr_cmp(src, &receiver)) {
    return;
  }
  printf("%s has arrived\n", held[first]);
  etimer_stop(&timer);
  number++;
  first = (first + 1) % LINES;
  count--;
  if(count > 0) {
    send_first();
  }
}

static void
hold(const char *line)
{
  if(count == LINES) {
    printf("too many lines\n");
    return;
  }
  strncpy(held[(first + count) % LINES], line, TEXT - 1);
  count++;
  if(count == 1) {
    send_first();
  }
}

PROCESS_THREAD(sender, ev, data)
{
  PROCESS_BEGIN();
  nullnet_set_input_callback(hear);
  while(1) {
    PROCESS_WAIT_EVENT();
    if(ev == serial_line_event_message) {
      hold(data);
    } else if(ev == PROCESS_EVENT_TIMER && count > 0) {
      send_first();
    }
  }
  PROCESS_END();
}
