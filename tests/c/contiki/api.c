/* Contiki-NG's names, one group after another: what each is to answer stands in api.text. */
#include "contiki.h"
#include "dev/leds.h"
#include "lib/crc16.h"
#include "lib/queue.h"
#include "lib/ringbuf.h"
#include "lib/stack.h"
#include "net/linkaddr.h"
#include "sys/log.h"
#include "sys/node-id.h"
#include "sys/pt-sem.h"

#include <stdio.h>

#define LOG_MODULE "Api"
#define LOG_LEVEL LOG_LEVEL_WARN

PROCESS(api, "Api");
PROCESS(helper, "Helper");
PROCESS(guest, "Guest");
AUTOSTART_PROCESSES(&api, &helper);

struct item {
  struct item *next;
  int number;
};

LIST(items);
QUEUE(waiting);
STACK(plates);
MEMB(pool, struct item, 2);

static void
show_list(const char *name, list_t list)
{
  printf("%s:", name);
  for(struct item *item = list_head(list); item != NULL; item = list_item_next(item)) {
    printf(" %d", item->number);
  }
  printf("\n");
}

static void
try_lists(void)
{
  static struct item a = {.number = 1}, b = {.number = 2}, c = {.number = 3};
  LIST(copy);
  list_init(items);
  printf("%d %d\n", list_head(items) == NULL, list_pop(items) == NULL);
  list_add(items, &a);
  list_add(items, &b);
  list_push(items, &c);
  show_list("push", items);
  list_add(items, &c);
  show_list("add again", items);
  list_insert(items, &a, &c);
  show_list("insert", items);
  list_insert(items, NULL, &b);
  show_list("insert in front", items);
  list_add(items, NULL);
  list_push(items, NULL);
  list_insert(items, &b, NULL);
  list_remove(items, NULL);
  show_list("nothing", items);
  list_copy(copy, items);
  printf("%d %d %d\n", list_length(copy), list_contains(items, &c), ((struct item *)list_tail(items))->number);
  list_remove(items, &a);
  printf("%d %d\n", list_contains(items, &a), ((struct item *)list_chop(items))->number);
  printf("%d", ((struct item *)list_pop(items))->number);
  printf(" %d\n", list_length(items));
  queue_init(waiting);
  queue_enqueue(waiting, &a);
  queue_enqueue(waiting, &b);
  printf("queue %d", ((struct item *)queue_dequeue(waiting))->number);
  printf(" %d %d\n", ((struct item *)queue_peek(waiting))->number, queue_is_empty(waiting));
  stack_init(plates);
  stack_push(plates, &a);
  stack_push(plates, &c);
  printf("stack %d", ((struct item *)stack_pop(plates))->number);
  printf(" %d\n", ((struct item *)stack_peek(plates))->number);
}

static void
try_pool(void)
{
  struct item *first, *second;
  int elsewhere;
  memb_init(&pool);
  first = memb_alloc(&pool);
  second = memb_alloc(&pool);
  printf("pool %d %d", first != second, memb_alloc(&pool) == NULL);
  printf(" %d\n", (int)memb_numfree(&pool));
  printf("%d %d\n", memb_inmemb(&pool, second) != 0, memb_inmemb(&pool, &elsewhere) != 0);
  printf("%d", memb_free(&pool, first));
  printf(" %d %d\n", memb_free(&pool, &elsewhere), (int)memb_numfree(&pool));
  printf("%d", memb_alloc(&pool) == first);
  printf(" %d\n", first->number);
  memb_init(&pool);
  printf("%d\n", (int)memb_numfree(&pool));
}

static void
try_heap(void)
{
  heapmem_stats_t stats;
  char *text = heapmem_alloc(8), *longer, *none;
  strcpy(text, "seven..");
  heapmem_stats(&stats);
  printf("heap %d %d %d\n", (int)stats.allocated, (int)stats.chunks, (int)(stats.allocated + stats.overhead + stats.available));
  longer = heapmem_realloc(text, 20);
  printf("%s %d\n", longer, longer[19]);
  none = heapmem_alloc(5000);
  printf("%d %d %d\n", none == NULL, heapmem_alloc(0) == NULL, heapmem_realloc(longer, 5000) == NULL);
  printf("%s", longer);
  printf(" %d %d\n", heapmem_free(longer), heapmem_free(NULL));
  none = heapmem_calloc(4, 4);
  printf("%d", none[15]);
  printf(" %d\n", heapmem_realloc(none, 0) == NULL);
}

static void
try_managed(void)
{
  static struct mmem front, back;
  char *before;
  mmem_init();
  printf("mmem %d", mmem_alloc(&front, 4000));
  printf(" %d", mmem_alloc(&back, 100));
  printf(" %d\n", mmem_alloc(&back, 90));
  strcpy(MMEM_PTR(&back), "stays");
  before = MMEM_PTR(&back);
  mmem_free(&front);
  printf("%s %d\n", (char *)MMEM_PTR(&back), before != MMEM_PTR(&back));
  /* What was taken before the one that goes stays where it is. */
  mmem_alloc(&front, 10);
  before = MMEM_PTR(&back);
  mmem_free(&front);
  printf("%d", before == MMEM_PTR(&back));
  mmem_free(&back);
  printf(" %d\n", MMEM_PTR(&back) == NULL);
}

/* Two protothreads and a semaphore: one item at a time. */
static struct pt_sem full, empty;
static int held, produced;

static PT_THREAD(produce(struct pt *pt))
{
  PT_BEGIN(pt);
  for(produced = 1; produced <= 3; produced++) {
    PT_SEM_WAIT(pt, &empty);
    held = produced;
    printf("made %d\n", held);
    PT_SEM_SIGNAL(pt, &full);
  }
  PT_END(pt);
}

static PT_THREAD(consume(struct pt *pt))
{
  PT_BEGIN(pt);
  while(1) {
    PT_SEM_WAIT(pt, &full);
    printf("used %d\n", held);
    if(held == 3) {
      PT_EXIT(pt);
    }
    PT_SEM_SIGNAL(pt, &empty);
    PT_YIELD(pt);
  }
  PT_END(pt);
}

static PT_THREAD(nest(struct pt *pt))
{
  static struct pt inner;
  PT_BEGIN(pt);
  PT_SEM_INIT(&full, 0);
  PT_SEM_INIT(&empty, 1);
  PT_SPAWN(pt, &inner, produce(&inner));
  printf("all made\n");
  PT_END(pt);
}

static void
try_protothreads(void)
{
  struct pt producer, consumer;
  PT_INIT(&producer);
  PT_INIT(&consumer);
  PT_SEM_INIT(&full, 0);
  PT_SEM_INIT(&empty, 1);
  bool goes_on = true;
  while(goes_on) {
    goes_on = PT_SCHEDULE(produce(&producer));
    goes_on = PT_SCHEDULE(consume(&consumer)) || goes_on;
    printf("%u full\n", PT_SEM_COUNT(&full));
  }
  PT_INIT(&producer);
  printf("%d", nest(&producer));
  PT_SEM_SIGNAL(&producer, &empty);
  printf(" %d\n", nest(&producer));
}

static void
try_the_rest(void)
{
  uint8_t room[4];
  struct ringbuf ring;
  linkaddr_t address = {{1, 2, 3, 4, 5, 6, 7, 8}};
  ringbuf_init(&ring, room, sizeof room);
  printf("ring %d", ringbuf_get(&ring));
  printf(" %d", ringbuf_put(&ring, 7));
  ringbuf_put(&ring, 8);
  ringbuf_put(&ring, 9);
  printf(" %d", ringbuf_put(&ring, 10));
  printf(" %d", ringbuf_get(&ring));
  printf(" %d %d\n", ringbuf_elements(&ring), ringbuf_size(&ring));
  printf("crc %04x\n", crc16_data((const unsigned char *)"123456789", 9, 0));
  random_init(7);
  unsigned short drawn = random_rand();
  random_init(7);
  printf("random %d\n", drawn == random_rand());
  leds_on(LEDS_RED | LEDS_GREEN);
  leds_toggle(LEDS_GREEN);
  leds_single_on(LEDS_NUM_BLUE);
  printf("leds %d\n", leds_get());
  LOG_ERR("error %d\n", 1);
  LOG_WARN("to ");
  LOG_WARN_LLADDR(&address);
  LOG_WARN_(" and ");
  LOG_WARN_LLADDR(NULL);
  LOG_WARN_("\n");
  LOG_INFO("is not shown\n");
  LOG_WARN_BYTES("\x0f\xf0", 2);
  LOG_INFO_BYTES("\x01", 1);
  printf(" %d %d %d\n", linkaddr_cmp(&address, &linkaddr_null), linkaddr_cmp(&linkaddr_node_addr, &linkaddr_node_addr), node_id);
}

static struct etimer timer, other;
static struct ctimer callback;
static struct timer passive;
static struct stimer seconds;

static void
called(void *ptr)
{
  printf("callback for %s: %s, %d\n", PROCESS_CURRENT()->name, (char *)ptr, ctimer_expired(&callback));
}

/* A process may be told something in the midst of another one's call. */
PROCESS_THREAD(helper, ev, data)
{
  PROCESS_POLLHANDLER(printf("helper: poll\n"));
  PROCESS_EXITHANDLER(printf("helper: exit\n"));
  PROCESS_BEGIN();

  while(1) {
    PROCESS_WAIT_EVENT_UNTIL(ev == PROCESS_EVENT_MSG || ev == PROCESS_EVENT_TIMER || ev == PROCESS_EVENT_EXITED);
    if(ev == PROCESS_EVENT_EXITED) {
      printf("helper: %s has ended\n", ((struct process *)data)->name);
    } else if(ev == PROCESS_EVENT_TIMER) {
      printf("helper: timer %d\n", data == &other);
    } else {
      printf("helper: %s\n", (char *)data);
    }
  }

  PROCESS_END();
}

/* One that isn't started with the program. */
PROCESS_THREAD(guest, ev, data)
{
  PROCESS_EXITHANDLER(printf("never\n"));
  PROCESS_BEGIN();

  printf("guest: %s\n", (char *)data);
  PROCESS_PAUSE();
  printf("guest: leaves\n");
  process_exit(PROCESS_CURRENT());
  printf("guest: runs %d\n", process_is_running(&guest));
  PROCESS_WAIT_EVENT();
  printf("never\n");

  PROCESS_END();
}

PROCESS_THREAD(api, ev, data)
{
  static char hello[] = "hello", again[] = "again";

  PROCESS_BEGIN();

  try_lists();
  try_pool();
  try_heap();
  try_managed();
  try_protothreads();
  try_the_rest();

  printf("event %d\n", process_alloc_event());
  PROCESS_PAUSE();
  process_post_synch(&helper, PROCESS_EVENT_MSG, hello);
  process_poll(&helper);
  printf("%d %d\n", process_post(&helper, PROCESS_EVENT_MSG, again), process_is_running(&guest));
  process_start(&guest, hello);
  printf("%d\n", process_is_running(&guest));
  PROCESS_WAIT_EVENT_UNTIL(ev == PROCESS_EVENT_EXITED);
  printf("%s has ended\n", PROCESS_NAME_STRING((struct process *)data));

  /* Clock 0. */
  etimer_set(&timer, 10);
  ctimer_set(&callback, 20, called, hello);
  timer_set(&passive, 15);
  stimer_set(&seconds, 1);
  PROCESS_CONTEXT_BEGIN(&helper);
  etimer_set(&other, 30);
  PROCESS_CONTEXT_END(&helper);
  printf("%d %lu %lu %lu\n", etimer_expired(&timer), etimer_expiration_time(&timer), etimer_start_time(&timer),
         etimer_next_expiration_time());
  PROCESS_WAIT_EVENT_UNTIL(etimer_expired(&timer));
  /* Clock 12: the timer was due at 10. */
  printf("%lu %d %lu\n", clock_time(), timer_expired(&passive), timer_remaining(&passive));
  etimer_reset(&timer);
  printf("%lu\n", etimer_expiration_time(&timer));
  etimer_adjust(&timer, 2);
  printf("%lu %d\n", etimer_expiration_time(&timer), etimer_expired(&timer));
  PROCESS_WAIT_EVENT_UNTIL(ev == PROCESS_EVENT_TIMER);
  /* Clock 40: the helper's timer and the callback were due, too. */
  timer_reset(&passive);
  printf("%d %lu %d\n", timer_expired(&passive), passive.start, stimer_expired(&seconds));
  etimer_reset_with_new_interval(&timer, 50);
  printf("%lu %lu\n", etimer_expiration_time(&timer), etimer_next_expiration_time());
  etimer_stop(&timer);
  printf("%d %d\n", etimer_expired(&timer), etimer_pending());
  /* The callback's last interval ended at 20. */
  ctimer_reset(&callback);
  etimer_restart(&timer);
  printf("%lu\n", etimer_expiration_time(&timer));
  PROCESS_WAIT_UNTIL(etimer_expired(&timer));
  /* Clock 128. */
  printf("%lu %lu %d\n", clock_seconds(), stimer_elapsed(&seconds), stimer_expired(&seconds));
  ctimer_set(&callback, 5, called, again);
  ctimer_stop(&callback);
  printf("%d\n", ctimer_expired(&callback));
  ctimer_restart(&callback);
  printf("%d\n", ctimer_expired(&callback));
  PROCESS_YIELD();
  process_exit(&helper);
  PROCESS_EXIT();

  PROCESS_END();
}
