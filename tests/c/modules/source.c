/*
 * A source in Contiki-NG's own form: neighbours in a pool and on a list, their names in managed memory, a queue of bytes from an
 * interrupt, and a report on the heap. It is compiled with both sets of headers, unchanged, and prints the same with both.
 */
#include "lib/heapmem.h"
#include "lib/list.h"
#include "lib/memb.h"
#include "lib/mmem.h"
#include "lib/ringbuf.h"

#include <stdio.h>
#include <string.h>

#define MAX_NEIGHBOURS 4

struct neighbour {
  struct neighbour *next;
  struct mmem name;
  int rssi;
};

MEMB(neighbour_memb, struct neighbour, MAX_NEIGHBOURS);
LIST(neighbour_list);

static struct ringbuf line;
static uint8_t line_data[16];

static struct neighbour *
add_neighbour(const char *name, int rssi)
{
  struct neighbour *n = memb_alloc(&neighbour_memb);
  if(n == NULL) {
    printf("no room for %s\n", name);
    return NULL;
  }
  if(mmem_alloc(&n->name, (unsigned)strlen(name) + 1) == 0) {
    memb_free(&neighbour_memb, n);
    printf("no room for the name %s\n", name);
    return NULL;
  }
  strcpy((char *)MMEM_PTR(&n->name), name);
  n->rssi = rssi;
  list_add(neighbour_list, n);
  return n;
}

static void
remove_neighbour(struct neighbour *n)
{
  list_remove(neighbour_list, n);
  mmem_free(&n->name);
  printf("freed: %d\n", memb_free(&neighbour_memb, n));
}

static char *
report(void)
{
  size_t length = 1;
  char *text = heapmem_calloc(1, 1);
  for(struct neighbour *n = list_head(neighbour_list); n != NULL; n = list_item_next(n)) {
    char row[64];
    int more = snprintf(row, sizeof row, "%s %d;", (char *)MMEM_PTR(&n->name), n->rssi);
    char *longer = heapmem_realloc(text, length + (size_t)more);
    if(longer == NULL) {
      break;
    }
    text = longer;
    strcpy(text + length - 1, row);
    length += (size_t)more;
  }
  return text;
}

int
main(void)
{
  memb_init(&neighbour_memb);
  mmem_init();
  list_init(neighbour_list);
  ringbuf_init(&line, line_data, sizeof(line_data));

  struct neighbour *first = add_neighbour("alpha", -40);
  add_neighbour("a neighbour with a longer name", -71);
  struct neighbour *third = add_neighbour("gamma", -55);
  add_neighbour("delta", -60);
  add_neighbour("epsilon", -61);
  char *text = report();
  printf("%s %d free %lu\n", text, list_length(neighbour_list), (unsigned long)memb_numfree(&neighbour_memb));
  heapmem_free(text);

  remove_neighbour(first);
  remove_neighbour(third);
  struct mmem block, other;
  printf("a large block: %d\n", mmem_alloc(&block, 3500));
  printf("too large a one: %d\n", mmem_alloc(&other, 5000));
  add_neighbour("zeta", -33);
  text = report();
  printf("%s inside %d\n", text, memb_inmemb(&neighbour_memb, list_head(neighbour_list)));
  heapmem_free(text);
  printf("too much: %d\n", heapmem_alloc(100000) != NULL);

  for(const char *c = "AT+TEMPERATURE=21\n"; *c != '\0'; c++) {
    if(!ringbuf_put(&line, (uint8_t)*c)) {
      printf("full at %d of %d\n", ringbuf_elements(&line), ringbuf_size(&line));
      break;
    }
  }
  for(int c = ringbuf_get(&line); c != -1; c = ringbuf_get(&line)) {
    putchar(c);
  }
  putchar('\n');
  struct neighbour *popped = list_pop(neighbour_list);
  printf("%s\n", (char *)MMEM_PTR(&popped->name));
  return 0;
}
