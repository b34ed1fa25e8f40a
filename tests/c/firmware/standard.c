/* What functions of the C library return: on a board they are the driver's own, or newlib's. */
#include "contiki.h"

#include <math.h>
#include <stdlib.h>

PROCESS(only, "Only");
AUTOSTART_PROCESSES(&only);

static volatile double two = 2;

/* Items are compared by their tens, and each comparison counts. */
static unsigned comparisons;

static int
compare(const void *first, const void *second)
{
  comparisons = comparisons * 31 + (unsigned)(*(const int *)first * 3 + *(const int *)second);
  return *(const int *)first / 10 - *(const int *)second / 10;
}

static void
print_sorted(void)
{
  int items[50];
  for(unsigned count = 0; count <= 50; count += 7) {
    comparisons = 0;
    for(unsigned i = 0; i < count; i++) {
      items[i] = rand() % 60;
    }
    qsort(items, count, sizeof items[0], compare);
    for(unsigned i = 0; i < count; i++) {
      printf("%d ", items[i]);
    }
    printf("after %u\n", comparisons);
  }
}

static void
print_all(void)
{
  int first = 0, second = 0, count = sscanf("12 -7", "%d %d", &first, &second);
  printf("sscanf %d: %d %d\n", count, first, second);
  printf("puts %d\n", puts("seven.."));
  printf("fputs %d, putchar %d\n", fputs("", stdout), putchar('\n'));
  printf("ferror %d %d, feof %d\n", ferror(stdout) != 0, ferror(stderr) != 0, feof(stdout) != 0);
  printf("realloc %d\n", realloc(malloc(8), 0) != NULL);
  printf("sqrt %.6f\n", sqrt(two));
}

PROCESS_THREAD(only, ev, data)
{
  PROCESS_BEGIN();
  print_all();
  print_sorted();
  PROCESS_END();
}
