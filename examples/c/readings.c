/* Stores texts of different lengths in managed memory, by mmem.h of Contiki: one slides down so that a long one fits. */
#include "lib/mmem.h"

#include <stdio.h>
#include <string.h>

int
main(void)
{
  struct mmem first, second, third;
  mmem_init();
  if(!mmem_alloc(&first, 2000) || !mmem_alloc(&second, 16)) {
    return 1;
  }
  strcpy(MMEM_PTR(&second), "21 degrees");
  mmem_free(&first);
  if(!mmem_alloc(&third, 4080)) {
    return 1;
  }
  printf("%s\n", (char *)MMEM_PTR(&second));
  return 0;
}
