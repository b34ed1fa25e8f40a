/*
 * mmem.h over managed memory by handles. A block's handle is the number of its row, and a table beside the rows has its owner: so
 * the pointers of all can be made anew when blocks slid.
 */
#include "guard.h"
#include "lib/mmem.h"
#include "toarmuts/managed.h"
#include "toarmuts/memory.h"

/* How many rows from the first on may have a block. */
static size_t used;

/* The first of those rows; the calls then look at no others. */
static struct toarmuts_managed
memory_of(size_t num)
{
  struct toarmuts_managed m = {toarmuts_mmem_memory.size, num, toarmuts_mmem_memory.rows, toarmuts_mmem_memory.bytes};
  return m;
}

/* The row of this owner, NULL for a row without a block; `used` where there is none. */
static size_t
row_of(const struct mmem *owner)
{
  size_t row = 0;
  while(row < used && toarmuts_mmem_memory.owners[row] != owner) {
    row++;
  }
  return row;
}

static void
refresh_pointers(void)
{
  struct toarmuts_managed m = memory_of(used);
  for(size_t row = 0; row < used; row++) {
    if(toarmuts_mmem_memory.owners[row] != NULL) {
      toarmuts_mmem_memory.owners[row]->ptr = toarmuts_managed_pointer(&m, row);
    }
  }
}

/* All bytes but those that blocks were asked for with are nobody's. */
static void
guard_rest(void)
{
  guard_bytes(toarmuts_mmem_memory.bytes, toarmuts_mmem_memory.size);
  for(size_t row = 0; row < used && is_guarded(); row++) {
    const struct mmem *owner = toarmuts_mmem_memory.owners[row];
    if(owner != NULL && owner->ptr != NULL) {
      open_bytes(owner->ptr, owner->size);
    }
  }
}

void
mmem_init(void)
{
  struct toarmuts_managed m = memory_of(toarmuts_mmem_memory.num);
  toarmuts_managed_init(&m);
  used = 0;
  guard_rest();
}

int
mmem_alloc(struct mmem *m, unsigned int size)
{
  if(m == NULL || row_of(m) < used) {
    return 0;
  }
  size_t row = row_of(NULL);
  if(row == toarmuts_mmem_memory.num) {
    return 0;
  }
  size_t rows = row < used ? used : row + 1;
  struct toarmuts_managed memory = memory_of(rows);
  open_bytes(toarmuts_mmem_memory.bytes, toarmuts_mmem_memory.size);
  if(toarmuts_managed_alloc(&memory, row, size == 0 ? 1 : size) != TOARMUTS_MANAGED_ALLOCATED) {
    guard_rest();
    return 0;
  }
  used = rows;
  toarmuts_mmem_memory.owners[row] = m;
  m->next = NULL;
  m->size = size;
  refresh_pointers();
  guard_rest();
  return 1;
}

void
mmem_free(struct mmem *m)
{
  size_t row = row_of(m);
  if(m == NULL || row == used) {
    return;
  }
  struct toarmuts_managed memory = memory_of(used);
  toarmuts_managed_free(&memory, row);
  toarmuts_mmem_memory.owners[row] = NULL;
  m->ptr = NULL;
  m->size = 0;
  while(used > 0 && toarmuts_mmem_memory.owners[used - 1] == NULL) {
    used--;
  }
  guard_rest();
}
