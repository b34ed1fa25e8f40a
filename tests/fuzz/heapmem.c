/* heapmem.h beside the model of its test. The heap has 1,024 bytes; between two inputs all blocks are freed. */
#include "module.h"

#include "../c/modules/heapmem_test.c"

static void
free_all(void)
{
  for(int i = 0; i < BLOCKS; i++) {
    WANT(model[i].pointer == NULL || heapmem_free(model[i].pointer));
  }
  memset(model, 0, sizeof model);
  give(0, UNITS, NOBODY);
}

int
LLVMFuzzerTestOneInput(const uint8_t *data, size_t size)
{
  heapmem_stats_t stats;
  begin_input(data, size);
  heapmem_stats(&stats);
  greatest = stats.max_footprint;
  give(0, UNITS, NOBODY);
  while(has_input()) {
    WANT(is_as_in_model() && has_the_bytes());
  }
  free_all();
  return 0;
}
