/* As the tests of memb and heapmem, with the mote's 16 blocks of heap memory. */
#include "contiki.h"
#include "lib/memb.h"
#include "lib/heapmem.h"
#include "services/unit-test/unit-test.h"

#include <stdio.h>
#include <string.h>

#define BLOCKS 16
#define POOL 5

struct sample {
  struct sample *next;
  uint16_t values[4];
};

MEMB(pool, struct sample, POOL);

static void *blocks[BLOCKS];

PROCESS(test_process, "Unit tests");
AUTOSTART_PROCESSES(&test_process);

UNIT_TEST_REGISTER(test_memb, "Pools");

UNIT_TEST(test_memb)
{
  int i;
  struct sample *taken[POOL];
  char other;

  UNIT_TEST_BEGIN();

  memb_init(&pool);
  UNIT_TEST_ASSERT(memb_numfree(&pool) == POOL);
  for(i = 0; i < POOL; i++) {
    taken[i] = memb_alloc(&pool);
    UNIT_TEST_ASSERT(taken[i] != NULL);
    UNIT_TEST_ASSERT(memb_inmemb(&pool, taken[i]));
    UNIT_TEST_ASSERT(memb_numfree(&pool) == (size_t)(POOL - 1 - i));
  }
  UNIT_TEST_ASSERT(memb_alloc(&pool) == NULL);
  UNIT_TEST_ASSERT(!memb_inmemb(&pool, &other));
  UNIT_TEST_ASSERT(memb_free(&pool, &other) == -1);
  UNIT_TEST_ASSERT(memb_free(&pool, taken[2]) == 0);
  UNIT_TEST_ASSERT(memb_alloc(&pool) == taken[2]);
  for(i = 0; i < POOL; i++) {
    UNIT_TEST_ASSERT(memb_free(&pool, taken[i]) == 0);
  }
  UNIT_TEST_ASSERT(memb_numfree(&pool) == POOL);

  UNIT_TEST_END();
}

UNIT_TEST_REGISTER(do_many_allocations, "Many allocations");

UNIT_TEST(do_many_allocations)
{
  int i;

  UNIT_TEST_BEGIN();

  for(i = 0; i < BLOCKS; i++) {
    blocks[i] = heapmem_alloc((size_t)(10 + i));
    UNIT_TEST_ASSERT(blocks[i] != NULL);
    UNIT_TEST_ASSERT((uintptr_t)blocks[i] % heapmem_alignment() == 0);
    memset(blocks[i], i, (size_t)(10 + i));
  }
  for(i = 0; i < BLOCKS; i++) {
    blocks[i] = heapmem_realloc(blocks[i], (size_t)(20 + i));
    UNIT_TEST_ASSERT(blocks[i] != NULL);
    UNIT_TEST_ASSERT(*(uint8_t *)blocks[i] == i);
  }
  for(i = 0; i < BLOCKS; i++) {
    UNIT_TEST_ASSERT(heapmem_free(blocks[i]) == true);
  }

  UNIT_TEST_END();
}

UNIT_TEST_REGISTER(max_alloc, "Maximum allocation, and its end");

UNIT_TEST(max_alloc)
{
  heapmem_stats_t before, after;
  void *block;

  UNIT_TEST_BEGIN();

  heapmem_stats(&before);
  UNIT_TEST_ASSERT(before.allocated == 0);
  UNIT_TEST_ASSERT(heapmem_alloc(before.available + 1) == NULL);
  UNIT_TEST_ASSERT(heapmem_free(&before) == false);
  UNIT_TEST_ASSERT(heapmem_free(NULL) == false);
  block = heapmem_calloc(10, 10);
  UNIT_TEST_ASSERT(block != NULL && *(uint8_t *)block == 0);
  heapmem_stats(&after);
  UNIT_TEST_ASSERT(after.allocated >= 100);
  UNIT_TEST_ASSERT(heapmem_free(block));
  heapmem_stats(&after);
  UNIT_TEST_ASSERT(after.allocated == 0 && after.available == before.available);

  UNIT_TEST_END();
}

PROCESS_THREAD(test_process, ev, data)
{
  PROCESS_BEGIN();

  printf("Run unit-test\n");
  printf("---\n");

  UNIT_TEST_RUN(test_memb);
  UNIT_TEST_RUN(do_many_allocations);
  UNIT_TEST_RUN(max_alloc);

  printf("=check-me= DONE\n");

  PROCESS_END();
}
