/* More heap blocks than a process has in the mote: bytes, figures and what is refused, and zones. Two processes have some. */
#include "contiki.h"

PROCESS(other, "Other");
PROCESS(owner, "Owner");
AUTOSTART_PROCESSES(&other, &owner);

static unsigned char *blocks[64];
static size_t sizes[64];
static heapmem_stats_t stats;

static size_t
size_of(unsigned i)
{
  return 1 + i * 7 % 30;
}

static void
fill(unsigned i)
{
  memset(blocks[i], (int)i + 1, sizes[i]);
}

/* Whether a block has its bytes, and no byte of another one. */
static unsigned
is_right(unsigned i)
{
  size_t at = 0;
  while(at < sizes[i] && blocks[i][at] == i + 1) {
    at++;
  }
  return at == sizes[i];
}

static unsigned
count_right(void)
{
  unsigned right = 0;
  for(unsigned i = 0; i < 64; i++) {
    right += blocks[i] != NULL && is_right(i);
  }
  return right;
}

/* The figures: all sums up to the heap, and besides what the blocks take, rounded up, a block of the mote has at most 16 bytes. */
static void
report(const char *what)
{
  size_t taken = 0, count = 0;
  for(unsigned i = 0; i < 64; i++) {
    taken += blocks[i] == NULL ? 0 : (sizes[i] + 3) / 4 * 4;
    count += blocks[i] != NULL;
  }
  heapmem_stats(&stats);
  printf("%s: %u right of %zu, %d %d %d\n", what, count_right(), count, stats.chunks == count, stats.overhead == 16 * count,
         stats.allocated - taken <= 16 * 15 && stats.allocated + stats.overhead + stats.available == 4096);
}

static void
resize(unsigned i, size_t size)
{
  unsigned char *bytes = heapmem_realloc(blocks[i], size);
  if(bytes != NULL) {
    blocks[i] = bytes;
    sizes[i] = size;
    fill(i);
  }
}

static void
free_block(unsigned i)
{
  heapmem_free(blocks[i]);
  blocks[i] = NULL;
}

static void
allocate(unsigned i)
{
  sizes[i] = size_of(i);
  blocks[i] = heapmem_alloc(sizes[i]);
  fill(i);
}

/* Frees parts of the owner, and the last block of the mote's that they are in. */
PROCESS_THREAD(other, ev, data)
{
  PROCESS_BEGIN();

  PROCESS_WAIT_EVENT_UNTIL(ev == PROCESS_EVENT_MSG);
  free_block(63);
  free_block(20);
  free_block(15);
  PROCESS_WAIT_EVENT_UNTIL(ev == PROCESS_EVENT_MSG);
  resize(40, 50);
  report("resized by another");

  PROCESS_END();
}

static void
use_parts(void)
{
  for(unsigned i = 0; i < 64; i++) {
    allocate(i);
  }
  report("64");
  for(unsigned i = 0; i < 64; i += 3) {
    free_block(i);
  }
  report("freed");
  for(unsigned i = 1; i < 64; i += 3) {
    resize(i, size_of(i) + 20);
    resize(i + 1, 1);
  }
  report("resized");
  printf("%d %d\n", heapmem_alloc(4000) == NULL, heapmem_realloc(blocks[16], 4000) == NULL);
  for(unsigned i = 0; i < 64; i += 3) {
    allocate(i);
  }
  report("again");
}

static void
show_figures(void)
{
  heapmem_stats(&stats);
  printf("%zu %zu %zu %zu %zu\n", stats.allocated, stats.overhead, stats.available, stats.footprint, stats.chunks);
}

/* Of 18 blocks of 100 bytes the last three are parts of one of the mote. */
static void
use_gaps(void)
{
  for(unsigned i = 0; i < 18; i++) {
    blocks[i] = heapmem_alloc(100);
  }
  show_figures();
  heapmem_free(blocks[17]);
  show_figures();
  blocks[17] = heapmem_alloc(100);
  heapmem_free(blocks[15]);
  show_figures();
  /* No room in the gap, and room in it. */
  blocks[15] = heapmem_alloc(120);
  show_figures();
  blocks[18] = heapmem_alloc(60);
  show_figures();
  blocks[15] = heapmem_realloc(blocks[15], 40);
  show_figures();
  for(unsigned i = 0; i < 19; i++) {
    heapmem_free(blocks[i]);
  }
  show_figures();
}

/* Three zones: two of 100 bytes, and the rest. */
static void
use_zones(void)
{
  heapmem_zone_t one = heapmem_zone_register("one", 100), two = heapmem_zone_register("two", 100);
  void *block = heapmem_zone_alloc(one, 40);
  printf("%d %d %d %d\n", one, two, heapmem_zone_register("one", 4), heapmem_zone_register("three", 4000));
  printf("%d %d ", heapmem_zone_alloc(one, 29) == NULL, heapmem_zone_alloc(one, 28) != NULL);
  printf("%d %d %d\n", heapmem_zone_alloc(one, 1) == NULL, heapmem_zone_alloc(3, 1) == NULL, heapmem_alloc(3896) == NULL);
  heapmem_free(block);
  printf("%d %d\n", heapmem_zone_calloc(one, 10, 4) != NULL, heapmem_zone_calloc(one, SIZE_MAX, 4) == NULL);
}

PROCESS_THREAD(owner, ev, data)
{
  PROCESS_BEGIN();

  use_parts();
  process_post_synch(&other, PROCESS_EVENT_MSG, NULL);
  report("freed by another");
  PROCESS_WAIT_EVENT_UNTIL(ev == serial_line_event_message);
  process_post(&other, PROCESS_EVENT_MSG, NULL);
  PROCESS_WAIT_EVENT_UNTIL(ev == serial_line_event_message);
  for(unsigned i = 63; i > 0; i--) {
    heapmem_free(blocks[i]);
  }
  heapmem_free(blocks[0]);
  heapmem_stats(&stats);
  printf("%zu %zu\n", stats.available, stats.chunks);
  use_gaps();
  use_zones();

  PROCESS_END();
}
