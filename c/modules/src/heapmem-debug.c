/* What lib/heapmem.h prints; apart, so that a program that prints nothing needs no printf. Not every C library has %zu. */
#include "lib/heapmem.h"
#include "toarmuts/memory.h"

#include <stdio.h>

static void
print_chunks_in_order(void)
{
  struct toarmuts_heap_row row;
  for(size_t i = 0; toarmuts_heap_row_at(i, &row); i++) {
    printf("chunk %lu: place %lu, size %lu, room %lu\n", (unsigned long)i, (unsigned long)row.place,
           (unsigned long)toarmuts_heap_row_size(&row), (unsigned long)toarmuts_heap_row_room(&row));
  }
}

void
heapmem_print_debug_info(bool print_chunks)
{
  heapmem_stats_t stats;
  heapmem_stats(&stats);
  printf("heap: %lu bytes allocated, %lu overhead, %lu available, footprint %lu, at most %lu, %lu chunks\n", (unsigned long)stats.allocated,
         (unsigned long)stats.overhead, (unsigned long)stats.available, (unsigned long)stats.footprint, (unsigned long)stats.max_footprint,
         (unsigned long)stats.chunks);
  if(print_chunks) {
    print_chunks_in_order();
  }
}
