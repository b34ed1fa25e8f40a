/* Each mote sends a beacon every second, and has a table of those that it hears. A line on the serial line prints the table. */
#include "contiki.h"
#include "lib/list.h"
#include "lib/memb.h"
#include "net/netstack.h"
#include "net/nullnet/nullnet.h"

enum { NEIGHBOURS = 8, PATIENCE = 3 * CLOCK_SECOND };

struct neighbour {
  struct neighbour *next;
  linkaddr_t address;
  unsigned long heard_at;
};

MEMB(blocks, struct neighbour, NEIGHBOURS);
LIST(neighbours);
PROCESS(greeter, "Greeter");
AUTOSTART_PROCESSES(&greeter);

static struct neighbour *
find(const linkaddr_t *address)
{
  struct neighbour *n = list_head(neighbours);
  while(n != NULL && !linkaddr_cmp(&n->address, address)) {
    n = n->next;
  }
  return n;
}

static void
hear(const void *data, uint16_t len, const linkaddr_t *src, const linkaddr_t *dest)
{
  struct neighbour *n = find(src);
  (void)data;
  (void)len;
  (void)dest;
  if(n == NULL && (n = memb_alloc(&blocks)) != NULL) {
    linkaddr_copy(&n->address, src);
    list_add(neighbours, n);
  }
  if(n != NULL) {
    n->heard_at = clock_time();
  }
}

/* Forgets those that weren't heard for three seconds. */
static void
forget(void)
{
  struct neighbour *n = list_head(neighbours), *next;
  unsigned long now = clock_time();
  for(; n != NULL; n = next) {
    next = n->next;
    if(now - n->heard_at >= PATIENCE) {
      list_remove(neighbours, n);
      memb_free(&blocks, n);
    }
  }
}

static void
print_table(void)
{
  printf("%d:", list_length(neighbours));
  for(const struct neighbour *n = list_head(neighbours); n != NULL; n = n->next) {
    printf(" %u at %lu", n->address.u8[7], n->heard_at);
  }
  printf("\n");
}

PROCESS_THREAD(greeter, ev, data)
{
  static struct etimer timer;

  PROCESS_BEGIN();
  memb_init(&blocks);
  nullnet_set_input_callback(hear);
  etimer_set(&timer, CLOCK_SECOND);
  while(1) {
    PROCESS_WAIT_EVENT();
    if(ev == serial_line_event_message) {
      print_table();
    } else if(etimer_expired(&timer)) {
      forget();
      nullnet_len = 0;
      NETSTACK_NETWORK.output(NULL);
      etimer_reset(&timer);
    }
  }
  PROCESS_END();
}
