/*
 * Managed memory by handles: worked calls, a million random ones beside a plain model that keeps the bytes of each handle, and
 * random calls on rows that are none.
 */
#include "toarmuts/managed.h"

#include "check.h"

#include <stdlib.h>
#include <string.h>

enum { SIZE = 256, HANDLES = 12, LONGEST = 80 };

TOARMUTS_MANAGED(readings, 64, 3);
TOARMUTS_MANAGED(five, 5, 1);
TOARMUTS_MANAGED(many, SIZE, HANDLES);

static size_t
rounded(size_t n)
{
  return (n + 15) / 16 * 16;
}

static bool
given(struct toarmuts_managed *m, size_t handle, size_t size)
{
  return toarmuts_managed_alloc(m, handle, size) == TOARMUTS_MANAGED_ALLOCATED;
}

static char *
pointer_of(size_t handle)
{
  return toarmuts_managed_pointer(&readings, handle);
}

static void
check_worked_calls(void)
{
  check("all is free", toarmuts_managed_available(&readings) == 64 && pointer_of(0) == NULL);
  check("two blocks", given(&readings, 0, 10) && given(&readings, 1, 20));
  char *first = pointer_of(0), *second = pointer_of(1);
  check("one behind the other", first == (char *)readings.mem && second == first + 16);
  check("aligned", (uintptr_t)first % 16 == 0);
  check("sizes are rounded up", toarmuts_managed_available(&readings) == 64 - 16 - 32);
  check("in use", toarmuts_managed_alloc(&readings, 0, 1) == TOARMUTS_MANAGED_IN_USE);
  check("no such handle", toarmuts_managed_alloc(&readings, 3, 1) == TOARMUTS_MANAGED_NO_HANDLE && pointer_of(3) == NULL);
  check("no bytes", toarmuts_managed_alloc(&readings, 2, 0) == TOARMUTS_MANAGED_NO_BYTES);
  check("too many bytes", toarmuts_managed_alloc(&readings, 2, 17) == TOARMUTS_MANAGED_NO_ROOM);
  check("far too many bytes", toarmuts_managed_alloc(&readings, 2, SIZE_MAX) == TOARMUTS_MANAGED_NO_ROOM);
  memcpy(second, "sixteen letters", 16);
  check("taken away", toarmuts_managed_free(&readings, 0) && pointer_of(0) == NULL);
  check("taken away twice", !toarmuts_managed_free(&readings, 0) && !toarmuts_managed_free(&readings, 3));
  check("a hole is left", pointer_of(1) == second && toarmuts_managed_available(&readings) == 32);
  check("all that is free", given(&readings, 0, 32) && toarmuts_managed_available(&readings) == 0);
  second = pointer_of(1);
  first = pointer_of(0);
  check("slid together", second == (char *)readings.mem && first == second + 32);
  check("with its bytes", memcmp(second, "sixteen letters", 16) == 0);
  check("a new block is 0", first[0] == 0 && memcmp(first, first + 1, 31) == 0);
  toarmuts_managed_init(&readings);
  check("none is left", toarmuts_managed_available(&readings) == 64 && pointer_of(1) == NULL);
  check("five bytes in five", given(&five, 0, 5) && five.size == 16);
}

static void
check_nothing(void)
{
  struct toarmuts_managed none = {0, 0, NULL, NULL};
  toarmuts_managed_init(&none);
  check("no memory", toarmuts_managed_alloc(&none, 0, 1) == TOARMUTS_MANAGED_NO_HANDLE && !toarmuts_managed_free(&none, 0) &&
                       toarmuts_managed_pointer(&none, 0) == NULL && toarmuts_managed_available(&none) == 0);
}

/* What each handle stands for: so many bytes, none where the size is 0. */
struct model {
  size_t size[HANDLES];
  unsigned char bytes[HANDLES][LONGEST];
};

static size_t
free_in_model(const struct model *model)
{
  size_t left = SIZE;
  for(size_t i = 0; i < HANDLES; i++) {
    left -= rounded(model->size[i]);
  }
  return left;
}

/* Where the last block ends, by the pointers. */
static size_t
last_end(const struct model *model)
{
  size_t end = 0;
  for(size_t i = 0; i < HANDLES; i++) {
    if(model->size[i] != 0) {
      size_t here = (size_t)((unsigned char *)toarmuts_managed_pointer(&many, i) - many.mem) + rounded(model->size[i]);
      end = here > end ? here : end;
    }
  }
  return end;
}

static enum toarmuts_managed_status
alloc_in_model(struct model *model, size_t handle, size_t size)
{
  if(handle >= HANDLES) {
    return TOARMUTS_MANAGED_NO_HANDLE;
  }
  if(model->size[handle] != 0) {
    return TOARMUTS_MANAGED_IN_USE;
  }
  if(size == 0) {
    return TOARMUTS_MANAGED_NO_BYTES;
  }
  if(rounded(size) > free_in_model(model)) {
    return TOARMUTS_MANAGED_NO_ROOM;
  }
  model->size[handle] = size;
  memset(model->bytes[handle], 0, size);
  return TOARMUTS_MANAGED_ALLOCATED;
}

/* A new block comes behind the last one, and where it fits there, no other block moves. */
static bool
allocates_as_in_model(struct model *model, size_t handle, size_t size)
{
  char *before[HANDLES];
  size_t end = last_end(model);
  for(size_t i = 0; i < HANDLES; i++) {
    before[i] = toarmuts_managed_pointer(&many, i);
  }
  enum toarmuts_managed_status status = alloc_in_model(model, handle, size);
  if(toarmuts_managed_alloc(&many, handle, size) != status) {
    return false;
  }
  bool done = status == TOARMUTS_MANAGED_ALLOCATED;
  for(size_t i = 0; i < HANDLES; i++) {
    bool may_move = done && (i == handle || end + rounded(size) > SIZE);
    if(!may_move && toarmuts_managed_pointer(&many, i) != before[i]) {
      return false;
    }
  }
  return !done || (unsigned char *)toarmuts_managed_pointer(&many, handle) + rounded(size) == many.mem + last_end(model);
}

static bool
frees_as_in_model(struct model *model, size_t handle)
{
  bool live = handle < HANDLES && model->size[handle] != 0;
  if(live) {
    model->size[handle] = 0;
  }
  return toarmuts_managed_free(&many, handle) == live;
}

static void
write_to_both(struct model *model, size_t handle)
{
  unsigned char *bytes = handle < HANDLES ? toarmuts_managed_pointer(&many, handle) : NULL;
  for(size_t i = 0; bytes != NULL && i < model->size[handle]; i++) {
    bytes[i] = model->bytes[handle][i] = (unsigned char)next_random();
  }
}

static bool
has_the_bytes_of(const struct model *model)
{
  for(size_t i = 0; i < HANDLES; i++) {
    void *bytes = toarmuts_managed_pointer(&many, i);
    if((bytes != NULL) != (model->size[i] != 0) || (bytes != NULL && memcmp(bytes, model->bytes[i], model->size[i]) != 0)) {
      return false;
    }
  }
  return toarmuts_managed_available(&many) == free_in_model(model);
}

static void
check_random_calls(void)
{
  static struct model model;
  bool holds = true;
  toarmuts_managed_init(&many);
  for(int i = 0; i < RANDOM_CALLS && holds; i++) {
    size_t handle = next_random() % (HANDLES + 1);
    switch(next_random() % 3) {
    case 0:
      holds = allocates_as_in_model(&model, handle, next_random() % LONGEST);
      break;
    case 1:
      holds = frees_as_in_model(&model, handle);
      break;
    default:
      write_to_both(&model, handle);
    }
    holds = holds && has_the_bytes_of(&model);
  }
  check("random calls", holds);
}

/* A number near 0, near the memory's size or near the largest. */
static size_t
any_number(size_t size)
{
  size_t from[] = {0, 0, size / 2, size, SIZE_MAX};
  return from[next_random() % 5] + next_random() % 9 - next_random() % 5;
}

/* What a block takes by the proved calls: they round up to multiples of 4. */
static uint64_t
taken(uint64_t size)
{
  return (size + 3) / 4 * 4;
}

static bool
lies_inside(const struct toarmuts_managed_row *row, size_t size)
{
  return row->place <= size && row->size <= size - row->place && taken(row->size) <= size - row->place;
}

/* Whether the blocks lie in the memory, apart from each other: each of its bytes is counted. */
static bool
is_table(const struct toarmuts_managed *m)
{
  unsigned char counts[64] = {0};
  for(size_t i = 0; i < m->num; i++) {
    if(m->rows[i].size == 0) {
      continue;
    }
    if(!lies_inside(&m->rows[i], m->size)) {
      return false;
    }
    for(size_t k = 0; k < taken(m->rows[i].size); k++) {
      if(counts[m->rows[i].place + k]++ != 0) {
        return false;
      }
    }
  }
  return true;
}

/* One call on rows with anything in them: what it answers, and that only a block that was given out changes anything. */
static bool
is_sound_on(struct toarmuts_managed *m, int *tables)
{
  struct toarmuts_managed_row rows[4];
  unsigned char bytes[64];
  size_t handle = any_number(m->num);
  bool table = is_table(m);
  memcpy(rows, m->rows, m->num * sizeof *rows);
  memcpy(bytes, m->mem, m->size);
  *tables += table;
  if(table != (toarmuts_managed_alloc(m, handle, any_number(m->size)) != TOARMUTS_MANAGED_NO_TABLE)) {
    return false;
  }
  bool same = memcmp(rows, m->rows, m->num * sizeof *rows) == 0 && memcmp(bytes, m->mem, m->size) == 0;
  for(size_t i = 0; table && i < m->num; i++) {
    const unsigned char *now = toarmuts_managed_pointer(m, i);
    if(rows[i].size != 0 && memcmp(now, bytes + rows[i].place, rows[i].size) != 0) {
      return false;
    }
  }
  const char *pointer = toarmuts_managed_pointer(m, handle);
  bool good = pointer == NULL || lies_inside(&m->rows[handle], m->size);
  return good && (table ? is_table(m) : same && toarmuts_managed_available(m) == 0);
}

/* The rows and the bytes are blocks of their own, so that the sanitizer sees a byte behind them. */
static void
check_any_table(void)
{
  bool holds = true;
  int tables = 0;
  for(int i = 0; i < RANDOM_CALLS / 3 && holds; i++) {
    struct toarmuts_managed m = {1 + next_random() % 64, 1 + next_random() % 4, NULL, NULL};
    m.rows = malloc(m.num * sizeof *m.rows);
    m.mem = malloc(m.size);
    if(m.rows == NULL || m.mem == NULL) {
      abort();
    }
    for(size_t k = 0; k < m.num; k++) {
      m.rows[k].place = (uint32_t)any_number(m.size);
      m.rows[k].size = next_random() % 2 == 0 ? 0 : (uint32_t)any_number(m.size);
    }
    for(size_t k = 0; k < m.size; k++) {
      m.mem[k] = (unsigned char)next_random();
    }
    holds = is_sound_on(&m, &tables);
    toarmuts_managed_free(&m, any_number(m.num));
    free(m.rows);
    free(m.mem);
  }
  check("any table", holds);
  check("some tables, and many that are none", tables > RANDOM_CALLS / 100 && tables < RANDOM_CALLS / 3 - RANDOM_CALLS / 100);
}

int
main(void)
{
  check_worked_calls();
  check_nothing();
  check_random_calls();
  check_any_table();
  return conclude();
}
