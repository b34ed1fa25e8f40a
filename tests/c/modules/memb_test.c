/* Pools of blocks: worked calls, wrong arguments, and a million random calls beside a plain model of which blocks are used. */
#include "lib/memb.h"

#include "../../../c/modules/src/guard.h"

#include "check.h"

#include <string.h>

struct connection {
  int port;
  char name[12];
};

MEMB(pool, struct connection, 3);
MEMB(many, struct connection, 40);

struct large {
  char bytes[40000];
};

MEMB(wide, struct large, 2);

static void
check_worked_calls(void)
{
  memb_init(&pool);
  check("all are unused", memb_numfree(&pool) == 3);
  struct connection *a = memb_alloc(&pool);
  struct connection *b = memb_alloc(&pool);
  struct connection *c = memb_alloc(&pool);
  struct connection *memory = pool.mem;
  check("lowest first", a == memory && b == memory + 1 && c == memory + 2);
  check("none is left", memb_alloc(&pool) == NULL && memb_numfree(&pool) == 0);
  b->port = 7;
  memset(b->name, 7, sizeof b->name);
  check("given back", memb_free(&pool, b) == 0 && memb_numfree(&pool) == 1);
  check("given back twice", memb_free(&pool, b) == -1);
  check("within a block", memb_free(&pool, (char *)a + 1) == -1);
  check("behind the pool", memb_free(&pool, memory + 3) == -1);
  check("no pointer", memb_free(&pool, NULL) == -1 && !memb_inmemb(&pool, NULL));
  check("in the pool", memb_inmemb(&pool, (char *)c + sizeof *c - 1) && !memb_inmemb(&pool, memory + 3));
  struct connection *d = memb_alloc(&pool);
  check("the lowest again, and 0", d == b && d->port == 0 && d->name[0] == 0 && d->name[sizeof d->name - 1] == 0);
  memset(pool.mem, 7, 3 * sizeof *memory);
  memb_init(&pool);
  /* The sanitizer is told that nobody has them. */
  open_bytes(pool.mem, 3 * sizeof *memory);
  check("all unused, and 0", memb_numfree(&pool) == 3 && a->port == 0 && c->name[sizeof c->name - 1] == 0);
}

static void
check_wrong_arguments(void)
{
  struct memb none = {0, 3, NULL, NULL};
  unsigned char spoilt = 0xff;
  memb_init(NULL);
  memb_init(&none);
  check("no pool", memb_alloc(NULL) == NULL && memb_free(NULL, NULL) == -1 && memb_numfree(NULL) == 0);
  check("a pool of nothing", memb_alloc(&none) == NULL && memb_free(&none, &none) == -1 && memb_numfree(&none) == 0);
  memb_init(&pool);
  memcpy((void *)&pool.used[1], &spoilt, 1);
  check("a spoilt flag is a used block's", memb_numfree(&pool) == 2 && memb_free(&pool, (struct connection *)pool.mem + 1) == 0);
  memcpy((void *)&pool.used[1], &spoilt, 1);
  check("and is mended", memb_alloc(&pool) == pool.mem && pool.used[1] == true && memcmp(&pool.used[0], &pool.used[1], 1) == 0);
  memcpy((void *)&pool.used[1], &spoilt, 1);
  check("also when another one is given back", memb_free(&pool, pool.mem) == 0 && !memcmp(&pool.used[1], &(bool){true}, 1));
  memb_init(&pool);
  struct memb nowhere = {4, 3, pool.used, NULL};
  memb_init(&nowhere);
  check("a pool with no memory", memb_alloc(&nowhere) == NULL && memb_free(&nowhere, NULL) == -1 && memb_numfree(&nowhere) == 0);
  struct large *first = memb_alloc(&wide), *second = memb_alloc(&wide);
  check("more than 65,536 bytes", second == first + 1 && memb_inmemb(&wide, second) && memb_free(&wide, second) == 0);
}

/* Gives one block back, or takes one; the answers are those of the model. */
static bool
is_as_in_model(bool *used)
{
  struct connection *memory = many.mem;
  size_t number = next_random() % 41, lowest = 0;
  if(next_random() % 2 == 0) {
    bool was_used = number < 40 && used[number];
    if(was_used) {
      used[number] = false;
    }
    return memb_free(&many, (char *)many.mem + number * sizeof *memory) == (was_used ? 0 : -1);
  }
  while(lowest < 40 && used[lowest]) {
    lowest++;
  }
  struct connection *block = memb_alloc(&many);
  if(lowest == 40) {
    return block == NULL;
  }
  used[lowest] = true;
  return block == memory + lowest;
}

static void
check_random_calls(void)
{
  static bool used[40];
  bool holds = true;
  memb_init(&many);
  for(int i = 0; i < RANDOM_CALLS && holds; i++) {
    size_t unused = 0;
    holds = is_as_in_model(used);
    for(int k = 0; k < 40; k++) {
      unused += !used[k];
    }
    holds = holds && memb_numfree(&many) == unused;
  }
  check("random calls", holds);
}

int
main(void)
{
  check_worked_calls();
  check_wrong_arguments();
  check_random_calls();
  return conclude();
}
