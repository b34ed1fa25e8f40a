/* memb.h over the proved calls on flags. Here a block's number is made a pointer, and its bytes are set to 0. */
#include "guard.h"
#include "lib/memb.h"
#include "toarmuts/calls.h"

#include <string.h>

/* A flag that somebody else wrote to counts as set: a bool holds only 0 or 1. */
static void
mend_flags(struct memb *m)
{
  unsigned char *flags = (unsigned char *)m->used;
  for(size_t i = 0; i < m->num; i++) {
    flags[i] = flags[i] != 0;
  }
}

static bool
is_pool(const struct memb *m)
{
  return m != NULL && m->used != NULL && m->mem != NULL && m->size != 0;
}

void
memb_init(struct memb *m)
{
  if(!is_pool(m)) {
    return;
  }
  mend_flags(m);
  toarmuts_memb_init(m->used, m->num);
  open_bytes(m->mem, (size_t)m->size * m->num);
  memset(m->mem, 0, (size_t)m->size * m->num);
  guard_bytes(m->mem, (size_t)m->size * m->num);
}

void *
memb_alloc(struct memb *m)
{
  if(!is_pool(m)) {
    return NULL;
  }
  mend_flags(m);
  uint64_t block = toarmuts_memb_alloc(m->used, m->num);
  if(block >= m->num) {
    return NULL;
  }
  void *place = (unsigned char *)m->mem + (size_t)block * m->size;
  open_bytes(place, m->size);
  return memset(place, 0, m->size);
}

int
memb_inmemb(struct memb *m, void *ptr)
{
  if(!is_pool(m)) {
    return 0;
  }
  uintptr_t start = (uintptr_t)m->mem;
  return (uintptr_t)ptr >= start && (uintptr_t)ptr - start < (uintptr_t)m->size * m->num;
}

int
memb_free(struct memb *m, void *ptr)
{
  if(!memb_inmemb(m, ptr)) {
    return -1;
  }
  uintptr_t place = (uintptr_t)ptr - (uintptr_t)m->mem;
  if(place % m->size != 0) {
    return -1;
  }
  mend_flags(m);
  if(!toarmuts_memb_free(m->used, m->num, place / m->size)) {
    return -1;
  }
  guard_bytes(ptr, m->size);
  return 0;
}

size_t
memb_numfree(struct memb *m)
{
  if(!is_pool(m)) {
    return 0;
  }
  mend_flags(m);
  return (size_t)toarmuts_memb_numfree(m->used, m->num);
}
