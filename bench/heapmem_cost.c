/*
 * What a call of lib/heapmem.h costs, beside malloc of the C library and a plain best fit over a list of chunks: so many blocks
 * are live, and again and again one of them is freed and another one made. Nanoseconds of a processor for each such pair.
 *
 *   make -C c/modules && gcc -O2 -Ic/modules/include bench/heapmem_cost.c c/modules/out/libtoarmuts_modules.a -o cost && ./cost
 *
 * `./cost heapmem LIVE PAIRS` (or `plain`, `malloc`) makes so many pairs with so many live blocks and prints nothing, for counting
 * instructions: `valgrind --tool=callgrind` for 21,000 pairs less that for 1,000, by 20,000.
 */
#include "lib/heapmem.h"

#include <stdio.h>
#include <stdlib.h>
#include <string.h>
#include <time.h>

enum { ARENA = 65536, MOST = 1024 };

/* A chunk: its length with this header, whether it is free, and the next one. */
struct chunk {
  size_t length;
  struct chunk *next;
  bool free;
};

static TOARMUTS_BYTES(arena, ARENA);
static struct chunk *first;

static void *
plain_alloc(size_t size)
{
  size_t need = TOARMUTS_ALIGNED(size) + TOARMUTS_ALIGNED(sizeof(struct chunk));
  struct chunk *best = NULL;
  if(first == NULL) {
    first = (struct chunk *)(void *)arena.bytes;
    *first = (struct chunk){ARENA, NULL, true};
  }
  for(struct chunk *c = first; c != NULL; c = c->next) {
    if(c->free && c->length >= need && (best == NULL || c->length < best->length)) {
      best = c;
    }
  }
  if(best == NULL) {
    return NULL;
  }
  if(best->length - need > 2 * TOARMUTS_ALIGNED(sizeof(struct chunk))) {
    struct chunk *rest = (struct chunk *)(void *)((unsigned char *)best + need);
    *rest = (struct chunk){best->length - need, best->next, true};
    best->next = rest;
    best->length = need;
  }
  best->free = false;
  return (unsigned char *)best + TOARMUTS_ALIGNED(sizeof(struct chunk));
}

static void
plain_free(void *ptr)
{
  struct chunk *freed = (struct chunk *)(void *)((unsigned char *)ptr - TOARMUTS_ALIGNED(sizeof(struct chunk)));
  freed->free = true;
  for(struct chunk *c = first; c != NULL; c = c->next) {
    while(c->free && c->next != NULL && c->next->free) {
      c->length += c->next->length;
      c->next = c->next->next;
    }
  }
}

static void
free_block(void *ptr)
{
  heapmem_free(ptr);
}

static unsigned
next_random(void)
{
  static unsigned state = 1;
  state ^= state << 13;
  state ^= state >> 17;
  state ^= state << 5;
  return state;
}

/* An allocator: how a block is made, and how it is given back. */
struct allocator {
  const char *name;
  void *(*alloc)(size_t);
  void (*give_back)(void *);
};

static const struct allocator allocators[] = {
  {"heapmem", heapmem_alloc, free_block}, {"plain", plain_alloc, plain_free}, {"malloc", malloc, free}};

enum { ALLOCATORS = sizeof allocators / sizeof allocators[0], PAIRS = 20000 };

/* Makes so many pairs while so many blocks are live. Answers the nanoseconds of a pair. */
static double
cost_of(const struct allocator *a, size_t live, size_t pairs)
{
  static void *blocks[MOST];
  for(size_t i = 0; i < live; i++) {
    blocks[i] = a->alloc(8 + next_random() % 40);
  }
  clock_t start = clock();
  for(size_t i = 0; i < pairs; i++) {
    size_t k = next_random() % live;
    a->give_back(blocks[k]);
    blocks[k] = a->alloc(8 + next_random() % 40);
    if(blocks[k] == NULL) {
      abort();
    }
  }
  double spent = (double)(clock() - start) / CLOCKS_PER_SEC;
  for(size_t i = 0; i < live; i++) {
    a->give_back(blocks[i]);
  }
  return spent * 1e9 / (double)pairs;
}

/* The pairs that the words ask for, for counting. */
static int
make_pairs(char **words)
{
  size_t live = strtoul(words[1], NULL, 10), pairs = strtoul(words[2], NULL, 10);
  for(size_t i = 0; i < ALLOCATORS && live >= 1 && live <= MOST && pairs >= 1; i++) {
    if(strcmp(allocators[i].name, words[0]) == 0) {
      cost_of(&allocators[i], live, pairs);
      return 0;
    }
  }
  return 1;
}

int
main(int count, char **words)
{
  if(count > 1) {
    return count == 4 ? make_pairs(words + 1) : 1;
  }
  printf("live blocks   heapmem   plain best fit   malloc\n");
  for(size_t live = 4; live <= MOST / 2; live *= 4) {
    printf("%11zu %9.0f %16.0f %8.0f\n", live, cost_of(&allocators[0], live, PAIRS), cost_of(&allocators[1], live, PAIRS),
           cost_of(&allocators[2], live, PAIRS));
  }
  return 0;
}
