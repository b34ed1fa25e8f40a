/*
 * Managed memory as mmem.h has it: worked calls, wrong arguments, and a million random calls beside a plain model that keeps the
 * bytes of each block. The memory has 256 bytes (MMEM_CONF_SIZE).
 */
#include "lib/mmem.h"
#include "toarmuts/memory.h"

#include "check.h"

#include <string.h>

enum { SIZE = 256, OWNERS = 20, LONGEST = 100 };

static size_t
rounded(size_t size)
{
  return size == 0 ? 16 : (size + 15) / 16 * 16;
}

static void
check_worked_calls(void)
{
  struct mmem first, second, third;
  double *numbers;
  mmem_init();
  first.next = &second;
  check("two blocks", mmem_alloc(&first, 100) == 1 && mmem_alloc(&second, 40) == 1);
  check("one behind the other", (char *)MMEM_PTR(&second) == (char *)MMEM_PTR(&first) + 112);
  check("sizes", first.size == 100 && second.size == 40 && first.next == NULL);
  strcpy(MMEM_PTR(&second), "it keeps its bytes where it slides");
  mmem_free(&first);
  check("gone", first.ptr == NULL && first.size == 0);
  check("all that is free", mmem_alloc(&third, SIZE - 48) == 1);
  check("slid down, and its pointer with it", (char *)MMEM_PTR(&third) == (char *)MMEM_PTR(&second) + 48);
  check("with its bytes", strcmp(MMEM_PTR(&second), "it keeps its bytes where it slides") == 0);
  check("a new block is 0", ((char *)third.ptr)[0] == 0 && memcmp(third.ptr, (char *)third.ptr + 1, SIZE - 49) == 0);
  mmem_free(&second);
  mmem_free(&third);
  check("4 bytes, and doubles behind them", mmem_alloc(&first, 4) == 1 && mmem_alloc(&second, sizeof(double)) == 1);
  numbers = (double *)MMEM_PTR(&second);
  *numbers = 0.5;
  check("aligned", (uintptr_t)numbers % 16 == 0 && *numbers == 0.5);
  check("no bytes are 16", mmem_alloc(&third, 0) == 1 && (char *)third.ptr + 16 <= (char *)toarmuts_mmem_memory.bytes + SIZE);
  mmem_init();
}

static void
check_wrong_arguments(void)
{
  struct mmem one, other;
  struct toarmuts_managed_row row;
  mmem_init();
  check("nobody's", mmem_alloc(NULL, 4) == 0);
  mmem_free(NULL);
  mmem_free(&other);
  check("twice", mmem_alloc(&one, 4) == 1 && mmem_alloc(&one, 4) == 0 && one.size == 4 && one.ptr != NULL);
  check("too many bytes", mmem_alloc(&other, SIZE) == 0 && mmem_alloc(&other, UINT32_MAX) == 0);
  check("all of it", mmem_alloc(&other, SIZE - 16) == 1);
  mmem_free(&other);
  mmem_free(&other);
  check("freed twice", mmem_alloc(&other, SIZE - 16) == 1);
  mmem_free(&other);
  row = toarmuts_mmem_memory.rows[0];
  toarmuts_mmem_memory.rows[0].place = SIZE;
  check("spoilt rows", mmem_alloc(&other, 4) == 0);
  toarmuts_mmem_memory.rows[0] = row;
  check("mended rows", mmem_alloc(&other, 4) == 1);
  mmem_init();
}

/* A block takes 16 bytes at least. */
static void
check_many_blocks(void)
{
  static struct mmem small[SIZE / 16 + 1];
  bool holds = true;
  mmem_init();
  for(size_t i = 0; i < SIZE / 16; i++) {
    holds = holds && mmem_alloc(&small[i], 1) == 1;
  }
  check("as many as there is room for", holds && mmem_alloc(&small[SIZE / 16], 1) == 0);
  mmem_free(&small[3]);
  check("and another in the place of one", mmem_alloc(&small[SIZE / 16], 16) == 1 && mmem_alloc(&small[3], 1) == 0);
  mmem_init();
}

/* Whose block has which bytes; a size above LONGEST: none. */
static struct mmem owners[OWNERS];
static struct {
  bool live;
  size_t size;
  unsigned char bytes[LONGEST];
} model[OWNERS];

static size_t
free_in_model(void)
{
  size_t left = SIZE;
  for(size_t i = 0; i < OWNERS; i++) {
    left -= model[i].live ? rounded(model[i].size) : 0;
  }
  return left;
}

static bool
is_as_in_model(void)
{
  size_t i = next_random() % OWNERS, size = next_random() % LONGEST;
  bool fits = rounded(size) <= free_in_model();
  if(next_random() % 2 == 0) {
    mmem_free(&owners[i]);
    model[i].live = false;
  } else if(model[i].live || !fits) {
    return mmem_alloc(&owners[i], (unsigned)size) == 0;
  } else {
    if(mmem_alloc(&owners[i], (unsigned)size) != 1) {
      return false;
    }
    model[i].live = true;
    model[i].size = size;
    for(size_t k = 0; k < size; k++) {
      if(((unsigned char *)MMEM_PTR(&owners[i]))[k] != 0) {
        return false;
      }
      model[i].bytes[k] = (unsigned char)next_random();
    }
    memcpy(MMEM_PTR(&owners[i]), model[i].bytes, size);
  }
  return true;
}

static bool
has_the_bytes(void)
{
  for(size_t i = 0; i < OWNERS; i++) {
    if(model[i].live && memcmp(MMEM_PTR(&owners[i]), model[i].bytes, model[i].size) != 0) {
      return false;
    }
    if(model[i].live && (uintptr_t)MMEM_PTR(&owners[i]) % 16 != 0) {
      return false;
    }
  }
  return true;
}

static void
check_random_calls(void)
{
  bool holds = true;
  mmem_init();
  for(int i = 0; i < RANDOM_CALLS && holds; i++) {
    holds = is_as_in_model() && has_the_bytes();
  }
  check("random calls", holds);
}

int
main(void)
{
  check_worked_calls();
  check_wrong_arguments();
  check_many_blocks();
  check_random_calls();
  return conclude();
}
