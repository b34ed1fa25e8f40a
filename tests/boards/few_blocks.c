/*
 * Fewer rows than there may be blocks: compiled with HEAPMEM_CONF_ARENA_SIZE=1024, HEAPMEM_CONF_MAX_BLOCKS=3, MMEM_CONF_SIZE=256 and
 * MMEM_CONF_MAX_BLOCKS=2. Prints each answer, 1 for a block and 0 for a refusal.
 */
#include "lib/heapmem.h"
#include "lib/mmem.h"

#include <stdio.h>
#include <string.h>

int
main(void)
{
  char *blocks[4];
  static struct mmem managed[3];
  heapmem_stats_t stats;
  for(int i = 0; i < 4; i++) {
    blocks[i] = heapmem_alloc(16);
    printf("%d", blocks[i] != NULL);
  }
  /* With all rows in use a block still grows, moves and shrinks. */
  strcpy(blocks[0], "kept");
  blocks[0] = heapmem_realloc(blocks[0], 200);
  printf("%d", blocks[0] != NULL && strcmp(blocks[0], "kept") == 0);
  printf("%d", heapmem_realloc(blocks[1], 8) == blocks[1]);
  printf("%d", heapmem_free(blocks[2]));
  printf("%d\n", heapmem_alloc(700) != NULL);
  heapmem_stats(&stats);
  printf("%lu chunks\n", (unsigned long)stats.chunks);
  mmem_init();
  for(int i = 0; i < 3; i++) {
    printf("%d", mmem_alloc(&managed[i], 8));
  }
  mmem_free(&managed[0]);
  printf("%d\n", mmem_alloc(&managed[2], 200));
  return 0;
}
