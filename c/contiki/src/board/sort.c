/*
 * qsort: as that of the GNU C library it merges halves, and leaves equal items in their order; so a program has the same order on Linux,
 * after the same comparisons. Without memory for that it inserts one item after another.
 */
#include <stdint.h>
#include <stdlib.h>
#include <string.h>

struct sorting {
  size_t size; /* of an item */
  int (*compare)(const void *first, const void *second);
  uint8_t *room; /* for all items, or NULL */
};

/* Merges two sorted parts, of which the second one follows the first one. */
static void
merge(const struct sorting *sorting, uint8_t *first, uint8_t *second, const uint8_t *end)
{
  const uint8_t *from = first, *other = second;
  uint8_t *to = sorting->room;
  while(from < second && other < end) {
    const uint8_t **next = sorting->compare(from, other) <= 0 ? &from : &other;
    memcpy(to, *next, sorting->size);
    to += sorting->size;
    *next += sorting->size;
  }
  /* What is left of the second part is where it must be. */
  memmove(first + (to - sorting->room), from, (size_t)(second - from));
  memcpy(first, sorting->room, (size_t)(to - sorting->room));
}

static void
sort(const struct sorting *sorting, uint8_t *items, size_t count)
{
  size_t half = count / 2;
  uint8_t *second = items + half * sorting->size;
  if(count > 1) {
    sort(sorting, items, half);
    sort(sorting, second, count - half);
    merge(sorting, items, second, items + count * sorting->size);
  }
}

static void
swap(uint8_t *first, uint8_t *second, size_t size)
{
  for(size_t i = 0; i < size; i++) {
    uint8_t byte = first[i];
    first[i] = second[i];
    second[i] = byte;
  }
}

static void
insert_all(const struct sorting *sorting, uint8_t *items, size_t count)
{
  for(uint8_t *end = items + sorting->size; count > 1; count--, end += sorting->size) {
    for(uint8_t *at = end; at > items && sorting->compare(at - sorting->size, at) > 0; at -= sorting->size) {
      swap(at - sorting->size, at, sorting->size);
    }
  }
}

void
qsort(void *items, size_t count, size_t size, int (*compare)(const void *first, const void *second))
{
  struct sorting sorting = {size, compare, count > SIZE_MAX / (size == 0 ? 1 : size) ? NULL : malloc(count * size)};
  if(sorting.room != NULL) {
    sort(&sorting, items, count);
    free(sorting.room);
  } else {
    insert_all(&sorting, items, count);
  }
}
