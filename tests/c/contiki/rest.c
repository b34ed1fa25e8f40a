/* What stands in headers alone, and what has nothing to do with the mote: what it tells stands in rest.text. */
#include "contiki.h"
#include "contiki-lib.h"
#include "contiki-net.h"
#include "dev/leds.h"
#include "dev/watchdog.h"
#include "lib/assert.h"
#include "lib/crc16.h"
#include "lib/queue.h"
#include "lib/ringbuf.h"
#include "lib/stack.h"
#include "sys/critical.h"

#define LOG_CONF_WITH_LOC 1
#define LOG_MODULE "Rest"
#define LOG_LEVEL LOG_LEVEL_INFO
#include "sys/log.h"

PROCESS(rest, "Rest");
AUTOSTART_PROCESSES(&rest);

_Static_assert(PROCESS_EVENT_NONE == 128 && PROCESS_EVENT_INIT == 129 && PROCESS_EVENT_POLL == 130 && PROCESS_EVENT_EXIT == 131 &&
                 PROCESS_EVENT_SERVICE_REMOVED == 132 && PROCESS_EVENT_CONTINUE == 133 && PROCESS_EVENT_MSG == 134 &&
                 PROCESS_EVENT_EXITED == 135 && PROCESS_EVENT_TIMER == 136 && PROCESS_EVENT_COM == 137 && PROCESS_EVENT_MAX == 138,
               "event numbers");
_Static_assert(CLOCK_SECOND == 128 && PROCESS_CONF_NUMEVENTS == 32 && LINKADDR_SIZE == 8 && RANDOM_RAND_MAX == 65535, "numbers");
_Static_assert(LEDS_NUM_TO_MASK(LEDS_NUM_GREEN) == LEDS_GREEN && LEDS_NUM_TO_MASK(LEDS_NUM_YELLOW) == LEDS_YELLOW &&
                 LEDS_NUM_TO_MASK(LEDS_NUM_RED) == LEDS_RED && LEDS_NUM_TO_MASK(LEDS_NUM_BLUE) == LEDS_BLUE && LEDS_COUNT == 4,
               "lights");
_Static_assert(RTIMER_CLOCK_LT(5u, 6u) && !RTIMER_CLOCK_LT(6u, 6u) && RTIMER_CLOCK_LT(0xffffffffu, 0u), "clocks that wrap round");
_Static_assert(!LOG_DBG_ENABLED && LOG_WARN_ENABLED && LOG_INFO_ENABLED, "levels");
_Static_assert(MIN(1, 2) == 1 && MIN(2, 1) == 1 && MAX(1, 2) == 2 && MAX(2, 1) == 2 && ABS(-3) == 3 && ABS(3) == 3, "least and greatest");

struct item {
  struct item *next;
};

LIST(items);
LIST(copy);
STACK(plates);
QUEUE(waiting);

static void
try_lists(void)
{
  static struct item one, two, plate;
  printf("%d %d\n", stack_is_empty(plates), queue_is_empty(waiting));
  list_add(items, &one);
  list_add(items, &two);
  list_insert(items, &one, &one);
  stack_push(plates, &plate);
  printf("%d %d %d", list_length(items), list_contains(items, &one), list_contains(items, &two));
  /* What is taken out still tells what stood behind it, so a walk may take out. */
  list_remove(items, &one);
  printf(" %d %d\n", list_item_next(&one) == &two, stack_is_empty(plates));
  list_copy(copy, items);
  list_init(items);
  printf("%d", list_head(copy) == &two);
  list_copy(copy, items);
  printf(" %d %d\n", list_head(copy) == NULL, list_chop(copy) == NULL);
}

/* As many bytes as a ring holds, over and over. */
static void
try_rings(void)
{
  uint8_t room[4];
  struct ringbuf ring;
  ringbuf_init(&ring, room, sizeof room);
  for(uint8_t byte = 0; byte < 12; byte++) {
    ringbuf_put(&ring, byte);
    if(ringbuf_elements(&ring) == 3) {
      printf("%d", ringbuf_get(&ring));
      printf(" %d ", ringbuf_get(&ring));
    }
  }
  printf("\n");
}

static void
try_leds(void)
{
  leds_init();
  leds_set(LEDS_RED | LEDS_BLUE | 64);
  printf("%d", leds_get());
  leds_off(LEDS_RED | LEDS_GREEN);
  printf(" %d", leds_get());
  leds_on(LEDS_YELLOW | 128);
  printf(" %d", leds_get());
  leds_single_off(LEDS_NUM_BLUE);
  printf(" %d", leds_get());
  leds_single_toggle(LEDS_NUM_YELLOW);
  printf(" %d\n", leds_get());
}

static void
try_addresses(void)
{
  linkaddr_t address = {{1, 2, 3, 4, 5, 6, 7, 8}}, other;
  linkaddr_copy(&other, &address);
  printf("%d", linkaddr_cmp(&address, &other));
  other.u8[7] = 9;
  printf(" %d", linkaddr_cmp(&address, &other));
  linkaddr_set_node_addr(&other);
  printf(" %d %s", linkaddr_cmp(&linkaddr_node_addr, &other), NETSTACK_NETWORK.name);
  memcpy(&other.u16[LINKADDR_SIZE / 2 - 1], "\x0b\x0c", 2);
  printf(" %d %d\n", other.u8[6], other.u8[7]);
}

/* The numbers of different seeds differ, and some are above half of the greatest. */
static void
try_numbers(void)
{
  unsigned short first, high = 0;
  random_init(1);
  first = random_rand();
  random_init(2);
  printf("%d", first != random_rand());
  for(unsigned i = 0; i < 100; i++) {
    high |= random_rand();
  }
  printf(" %d", high > RANDOM_RAND_MAX / 2);
  printf(" %04x\n", crc16_data((const unsigned char *)"6789", 4, crc16_data((const unsigned char *)"12345", 5, 0)));
}

/* The log tells file and line. */
#line 1 "rest.c"
static void
try_log(void)
{
  LOG_INFO("shown\n");
  LOG_PRINT("always\n");
  LOG_DBG("never\n");
  LOG_DBG_("never\n");
  LOG_DBG_BYTES("\x01", 1);
  LOG_INFO_BYTES("\x01\xab", 2);
  LOG_INFO_("\n");
}

static void
received(const void *data, uint16_t len, const linkaddr_t *src, const linkaddr_t *dest)
{
  (void)data;
  (void)src;
  (void)dest;
  printf("never: %u bytes\n", len);
}

static PT_THREAD(anew(struct pt *pt, int number))
{
  PT_BEGIN(pt);
  printf("%d begins\n", number);
  PT_WAIT_WHILE(pt, number < 2);
  PT_RESTART(pt);
  PT_END(pt);
}

/* Exits in its midst, and begins anew at the next call. */
static PT_THREAD(leaving(struct pt *pt, int number))
{
  PT_BEGIN(pt);
  printf("%d comes\n", number);
  PT_YIELD(pt);
  printf("%d goes\n", number);
  PT_EXIT(pt);
  PT_END(pt);
}

/* Each spawn begins anew, wherever the other one stands. */
static PT_THREAD(spawning(struct pt *pt, struct pt *child, int number))
{
  PT_BEGIN(pt);
  PT_SPAWN(pt, child, leaving(child, number));
  PT_SPAWN(pt, child, leaving(child, number));
  PT_END(pt);
}

PROCESS_THREAD(rest, ev, data)
{
  static struct pt pt, parent;
  int_master_status_t status;

  PROCESS_BEGIN();

  watchdog_periodic();
  status = critical_enter();
  try_lists();
  try_rings();
  try_leds();
  try_addresses();
  try_numbers();
  try_log();
  critical_exit(status);
  printf("%d\n", int_master_is_enabled());
  PT_INIT(&pt);
  for(int number = 1; number < 5; number++) {
    printf("%d\n", PT_SCHEDULE(anew(&pt, number)));
  }
  PT_INIT(&pt);
  PT_INIT(&parent);
  for(int number = 1; number < 4; number++) {
    printf("%d\n", leaving(&pt, number));
  }
  for(int number = 4; number < 9; number++) {
    printf("%d\n", spawning(&parent, &pt, number));
  }
  PROCESS_WAIT_WHILE(ev == PROCESS_EVENT_MSG);
  PROCESS_YIELD_UNTIL(true);
  printf("%d\n", ev == serial_line_event_message);
  /* A frame that comes in is given back. */
  nullnet_set_input_callback(received);
  nullnet_set_input_callback(NULL);
  PROCESS_WAIT_EVENT_UNTIL(ev == serial_line_event_message);
  printf("end\n");

  PROCESS_END();
}
