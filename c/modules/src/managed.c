/* Managed memory by handles over the proved calls: sizes are rounded up so that blocks are aligned, and places made pointers. */
#include "toarmuts/managed.h"

/* The multiple of 16 that is asked for; one that no number has is more than any memory has. */
static size_t
rounded(size_t size)
{
  return size > SIZE_MAX - (TOARMUTS_ALIGNMENT - 1) ? SIZE_MAX - (TOARMUTS_ALIGNMENT - 1) : TOARMUTS_ALIGNED(size);
}

/* The proved calls are given no NULL, not even for no rows or no bytes. */
static struct toarmuts_managed_row no_row;
static unsigned char no_byte;

static struct toarmuts_managed_row *
rows_of(const struct toarmuts_managed *m)
{
  return m->num == 0 ? &no_row : m->rows;
}

static unsigned char *
bytes_of(const struct toarmuts_managed *m)
{
  return m->size == 0 ? &no_byte : m->mem;
}

void
toarmuts_managed_init(struct toarmuts_managed *m)
{
  toarmuts_mmem_init(rows_of(m), m->num);
}

enum toarmuts_managed_status
toarmuts_managed_alloc(struct toarmuts_managed *m, size_t handle, size_t size)
{
  return (enum toarmuts_managed_status)toarmuts_mmem_alloc(rows_of(m), m->num, bytes_of(m), m->size, handle, rounded(size));
}

bool
toarmuts_managed_free(struct toarmuts_managed *m, size_t handle)
{
  return toarmuts_mmem_free(rows_of(m), m->num, handle);
}

void *
toarmuts_managed_pointer(const struct toarmuts_managed *m, size_t handle)
{
  uint64_t place = toarmuts_mmem_place(rows_of(m), m->num, m->size, handle);
  return place < m->size ? m->mem + (size_t)place : NULL;
}

size_t
toarmuts_managed_available(const struct toarmuts_managed *m)
{
  return (size_t)toarmuts_mmem_avail(rows_of(m), m->num, m->size);
}
