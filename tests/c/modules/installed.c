/* What the library has of its own: a heap of 65,536 bytes with eight zones; and what it prints of that. */
#include "lib/heapmem.h"

#include <stdio.h>

int
main(void)
{
  static const char *const names[] = {"a", "b", "c", "d", "e", "f", "g"};
  unsigned zones = 0;
  void *gap;
  heapmem_alloc(40);
  gap = heapmem_alloc(100);
  heapmem_alloc(1);
  heapmem_free(heapmem_alloc(64));
  heapmem_free(gap);
  heapmem_alloc(96);
  heapmem_print_debug_info(false);
  heapmem_print_debug_info(true);
  printf("%d", heapmem_zone_register("general", 16) == HEAPMEM_ZONE_INVALID);
  /* The general zone's blocks were asked for 48, 96 and 16 bytes. */
  printf(" %d", heapmem_zone_register("most", 65536 - 160 + 1) == HEAPMEM_ZONE_INVALID);
  printf(" %d\n", heapmem_zone_register("most", 65536 - 160));
  while(zones < 7 && heapmem_zone_register(names[zones], 0) != HEAPMEM_ZONE_INVALID) {
    zones++;
  }
  printf("%u\n", zones);
  return 0;
}
