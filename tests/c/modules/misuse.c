/* A program over the memory modules that executes one statement, as tests/test_contiki_programs.py compiles it. */
#include "lib/heapmem.h"
#include "lib/memb.h"
#include "lib/mmem.h"
#include <string.h>

struct item {
  int number;
  char bytes[12];
};
MEMB(pool, struct item, 3);

static inline struct item *
pool_item(int number)
{
  return (struct item *)pool.mem + number;
}

int
main(void)
{
  struct item *item = memb_alloc(&pool);
  (void)item;
  (void)pool_item;
  STATEMENT;
  return 0;
}
