/*
 * modules_cost MODULE LIVE PAIRS: this number of pairs of calls, which allocate and free, beside LIVE others. It prints nothing: two runs'
 * instructions are counted, and one is subtracted from the other. Compiled over c/modules/include, or over the plain stand-ins of
 * tests/c/modules/original.
 */
#include "lib/heapmem.h"
#include "lib/memb.h"
#include "lib/mmem.h"
#include "lib/ringbuf.h"

#include <stdint.h>
#include <stdlib.h>
#include <string.h>

enum { MOST = 256 };
struct block {
  uint32_t numbers[4];
};
MEMB(pool, struct block, 16);

static uint32_t
next_random(void)
{
  static uint32_t state = 1;
  state ^= state << 13;
  state ^= state >> 17;
  state ^= state << 5;
  return state;
}

static int
pool_pairs(unsigned live, unsigned pairs)
{
  memb_init(&pool);
  for(unsigned i = 0; i < live; i++) {
    memb_alloc(&pool);
  }
  for(unsigned i = 0; i < pairs; i++) {
    void *block = memb_alloc(&pool);
    if(block == NULL || memb_free(&pool, block) != 0) {
      return 1;
    }
  }
  return 0;
}

static int
ring_pairs(unsigned live, unsigned pairs)
{
  static uint8_t data[64];
  static struct ringbuf ring;
  ringbuf_init(&ring, data, sizeof data);
  for(unsigned i = 0; i < live; i++) {
    ringbuf_put(&ring, (uint8_t)i);
  }
  for(unsigned i = 0; i < pairs; i++) {
    if(!ringbuf_put(&ring, (uint8_t)i) || ringbuf_get(&ring) < 0) {
      return 1;
    }
  }
  return 0;
}

static int
managed_pairs(unsigned live, unsigned pairs)
{
  static struct mmem blocks[MOST];
  mmem_init();
  for(unsigned i = 0; i <= live; i++) {
    mmem_alloc(&blocks[i], 16);
  }
  for(unsigned i = 0; i < pairs; i++) {
    mmem_free(&blocks[live]);
    if(!mmem_alloc(&blocks[live], 16)) {
      return 1;
    }
  }
  return 0;
}

static int
heap_pairs(unsigned live, unsigned pairs)
{
  static void *blocks[MOST];
  for(unsigned i = 0; i < live; i++) {
    blocks[i] = heapmem_alloc(8 + next_random() % 40);
  }
  for(unsigned i = 0; i < pairs; i++) {
    unsigned chosen = next_random() % live;
    heapmem_free(blocks[chosen]);
    blocks[chosen] = heapmem_alloc(8 + next_random() % 40);
    if(blocks[chosen] == NULL) {
      return 1;
    }
  }
  return 0;
}

int
main(int count, char **words)
{
  if(count != 4) {
    return 1;
  }
  unsigned live = (unsigned)strtoul(words[2], NULL, 10), pairs = (unsigned)strtoul(words[3], NULL, 10);
  return strcmp(words[1], "memb") == 0      ? pool_pairs(live, pairs)
         : strcmp(words[1], "ringbuf") == 0 ? ring_pairs(live, pairs)
         : strcmp(words[1], "mmem") == 0    ? managed_pairs(live, pairs)
                                            : heap_pairs(live, pairs);
}
