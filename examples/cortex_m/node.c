/*
 * A node's memory on a Cortex-M: a ring that an interrupt fills, a heap for lines, a pool of neighbours in a list, and managed memory
 * that slides together. `make run` runs it on an emulated board.
 */
#include "lib/heapmem.h"
#include "lib/list.h"
#include "lib/memb.h"
#include "lib/mmem.h"
#include "lib/ringbuf.h"
#include "startup.h"

#include <stdio.h>
#include <string.h>

struct neighbour {
  struct neighbour *next;
  unsigned char address;
};

MEMB(neighbour_pool, struct neighbour, 3);
LIST(neighbours);

static struct ringbuf received;
static uint8_t received_bytes[16];

/* Simulates a serial port: each interrupt brings a byte, unless the ring is full. */
void
systick_handler(void)
{
  static const char text[] = "node 2\nnode 5\nnode 7\nnode 9\n\n";
  static size_t next;
  if(next < sizeof text - 1) {
    next += (size_t)ringbuf_put(&received, (uint8_t)text[next]);
  }
}

static void
start_timer(void)
{
  volatile uint32_t *systick = (volatile uint32_t *)0xe000e010;
  systick[1] = 999;
  systick[2] = 0;
  systick[0] = 7;
}

/* The next line, in a block of the heap of its size, while interrupts continue. NULL: an empty line. */
static char *
read_line(void)
{
  char *line = NULL;
  size_t length = 0;
  for(;;) {
    int byte = ringbuf_get(&received);
    if(byte == '\n') {
      return line;
    }
    if(byte >= 0) {
      line = heapmem_realloc(line, length + 2);
      line[length++] = (char)byte;
    }
  }
}

/* A neighbour's block of the pool: the oldest one is freed if all are used. */
static void
add_neighbour(unsigned char address)
{
  struct neighbour *n = memb_alloc(&neighbour_pool);
  if(n == NULL) {
    memb_free(&neighbour_pool, list_pop(neighbours));
    n = memb_alloc(&neighbour_pool);
  }
  n->address = address;
  list_add(neighbours, n);
}

static void
print_neighbours(void)
{
  for(struct neighbour *n = list_head(neighbours); n != NULL; n = list_item_next(n)) {
    printf("neighbour %d\n", n->address);
  }
}

/* After the second block 528 of 1,024 bytes are left; it slides down so that one of 1,008 fits. */
static int
slide(void)
{
  static struct mmem first, second, third;
  mmem_init();
  if(!mmem_alloc(&first, 480) || !mmem_alloc(&second, 16)) {
    return 1;
  }
  strcpy(MMEM_PTR(&second), "21 degrees");
  const char *before = MMEM_PTR(&second);
  mmem_free(&first);
  if(!mmem_alloc(&third, 1008)) {
    return 1;
  }
  printf("%s, %d bytes lower\n", (const char *)MMEM_PTR(&second), (int)(before - (const char *)MMEM_PTR(&second)));
  return 0;
}

int
main(void)
{
  char *line;
  memb_init(&neighbour_pool);
  list_init(neighbours);
  ringbuf_init(&received, received_bytes, sizeof received_bytes);
  start_timer();
  while((line = read_line()) != NULL) {
    add_neighbour((unsigned char)(line[5] - '0'));
    heapmem_free(line);
  }
  print_neighbours();
  return slide();
}
