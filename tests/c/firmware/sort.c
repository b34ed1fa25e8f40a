/* The qsort of a board beside that of this machine's C library: the same order by the same comparisons, without memory the same order. */
#include "../check.h"

#include <stdlib.h>
#include <string.h>

enum { MOST = 300, WIDEST = 9, RUNS = 20000 };

void own_qsort(void *items, size_t count, size_t size, int (*compare)(const void *first, const void *second));
void *own_malloc(size_t size);

static bool has_memory;
static uint32_t comparisons;

void *
own_malloc(size_t size)
{
  return has_memory ? malloc(size) : NULL;
}

/* Many items are equal: their first byte's upper digit counts. */
static int
compare(const void *first, const void *second)
{
  uint8_t one = *(const uint8_t *)first, other = *(const uint8_t *)second;
  comparisons = comparisons * 31 + one * 3u + other;
  return (one >> 4) - (other >> 4);
}

int
main(void)
{
  static uint8_t items[MOST * WIDEST], own[MOST * WIDEST];
  for(unsigned i = 0; i < RUNS; i++) {
    size_t count = random_below(MOST + 1), size = 1 + random_below(WIDEST);
    uint32_t before;
    for(size_t at = 0; at < count * size; at++) {
      items[at] = own[at] = (uint8_t)next_random();
    }
    comparisons = 0;
    qsort(items, count, size, compare);
    before = comparisons;
    comparisons = 0;
    has_memory = i % 2 == 0;
    own_qsort(own, count, size, compare);
    check("the order is the same", memcmp(items, own, count * size) == 0);
    check("so are the comparisons", !has_memory || comparisons == before);
  }
  return conclude();
}
