/* Blocks of pools, heap and managed memory at their bounds, and frames from these: what they answer stands in blocks.text. */
#include "contiki.h"
#include "mote.h"
#include "net/netstack.h"
#include "net/nullnet/nullnet.h"

PROCESS(freer, "Freer");
PROCESS(inner, "Inner");
PROCESS(blocks, "Blocks");
AUTOSTART_PROCESSES(&freer, &inner, &blocks);

struct small {
  char bytes[12];
};
struct middle {
  char bytes[28];
};
struct large {
  char bytes[60];
};
struct largest {
  char bytes[124];
};

MEMB(small, struct small, 17);
MEMB(middle, struct middle, 1);
MEMB(large, struct large, 1);
MEMB(largest, struct largest, 1);

static char *of_inner, *of_blocks;

/* How many blocks are unused in each pool of the mote. */
static void
tell_pools(void)
{
  for(unsigned pool = 0; pool < 4; pool++) {
    printf("%d ", (int)MOTE_ASK(TOARMUTS_CALL_MEMB_NUM_FREE, pool)->number);
  }
  printf("\n");
}

static void
try_pools(void)
{
  char *first, *last = NULL;
  memb_alloc(&middle);
  memb_alloc(&large);
  memb_alloc(&largest);
  tell_pools();
  first = memb_alloc(&small);
  tell_pools();
  for(unsigned i = 1; i < 17; i++) {
    last = memb_alloc(&small);
  }
  tell_pools();
  printf("%d %d\n", memb_inmemb(&small, last + 11), memb_inmemb(&small, last + 12));
  strcpy(first, "old");
  printf("%d", memb_free(&small, first + 1));
  printf(" %d", memb_free(&small, first));
  printf(" %d\n", memb_free(&small, first));
  printf("%d", memb_alloc(&small) == first);
  printf(" %d\n", *first);
  memb_init(&small);
  tell_pools();
}

static void
tell_heap(void)
{
  heapmem_stats_t stats;
  heapmem_stats(&stats);
  printf("%d %d %d %d %d\n", (int)stats.allocated, (int)stats.overhead, (int)stats.available, (int)stats.footprint, (int)stats.chunks);
}

static void
try_heap(void)
{
  char outside, *text = heapmem_alloc(8);
  size_t wide = (size_t)UINT32_MAX + 9;
  strcpy(text, "abc");
  tell_heap();
  text = heapmem_realloc(text, 12);
  strcpy(text, "abcdefghij");
  text = heapmem_realloc(text, 20);
  printf("%s %d\n", text, text[19]);
  text = heapmem_realloc(text, 4);
  printf("%.4s\n", text);
  printf("%d %d %d\n", heapmem_alloc(wide) == NULL, heapmem_realloc(text, wide) == NULL, heapmem_calloc(SIZE_MAX / 3 + 1, 3) == NULL);
  printf("%d %d %d\n", heapmem_free(&outside), heapmem_realloc(&outside, 4) == NULL, heapmem_free(text));
  tell_heap();
}

static void
try_managed(void)
{
  static struct mmem block;
  static uint8_t frame[127];
  printf("%d", mmem_alloc(&block, 0));
  for(unsigned i = 0; i < 20; i++) {
    mmem_alloc(&block, 10);
    mmem_free(&block);
  }
  printf(" %d", mmem_alloc(&block, 4096));
  printf(" %u\n", block.size);
  /* A frame lies in managed memory, too. */
  nullnet_buf = frame;
  nullnet_len = sizeof frame;
  printf("%d", NETSTACK_NETWORK.output(NULL));
  mmem_free(&block);
  for(unsigned i = 0; i < 20; i++) {
    NETSTACK_NETWORK.output(NULL);
  }
  printf(" %d\n", NETSTACK_NETWORK.output(NULL));
}

/* It gives back what two others took, which stand in activations. */
PROCESS_THREAD(freer, ev, data)
{
  PROCESS_BEGIN();

  PROCESS_WAIT_EVENT_UNTIL(ev == PROCESS_EVENT_MSG);
  heapmem_free(of_blocks);
  heapmem_free(of_inner);

  PROCESS_END();
}

PROCESS_THREAD(inner, ev, data)
{
  PROCESS_BEGIN();

  of_inner = heapmem_alloc(8);
  PROCESS_WAIT_EVENT_UNTIL(ev == PROCESS_EVENT_MSG);
  process_post_synch(&freer, PROCESS_EVENT_MSG, NULL);

  PROCESS_END();
}

PROCESS_THREAD(blocks, ev, data)
{
  PROCESS_BEGIN();

  of_blocks = heapmem_alloc(8);
  process_post_synch(&inner, PROCESS_EVENT_MSG, NULL);
  tell_heap();
  try_pools();
  try_heap();
  try_managed();

  PROCESS_END();
}
