/*
 * The memory that libtoarmuts.a asks for while a mote is opened, from the caller's block: one request after the other, each with its size
 * before it. The last one can grow and be given back in place. Once a mote is open the library asks for none, and what toarmuts_close
 * gives back is the caller's anyway.
 */
#include "toarmuts_block.h"

#include <stdbool.h>
#include <string.h>

/* Requests begin at multiples of this. */
enum { ALIGNMENT = 16 };

union header {
  size_t size; /* of the bytes that follow */
  unsigned char unused[ALIGNMENT];
};

/* The part of the block that is left, and the most that was in use; while no mote is opened there is none. */
static uint8_t *next, *end;
static const uint8_t *most;
static size_t used;

static void *
request(size_t size)
{
  size_t rounded = (size + ALIGNMENT - 1) / ALIGNMENT * ALIGNMENT, left = (size_t)(end - next);
  union header *header = (union header *)next;
  if(next == NULL || rounded < size || left < sizeof *header || left - sizeof *header < rounded) {
    return NULL;
  }
  header->size = rounded;
  next += sizeof *header + rounded;
  most = next > most ? next : most;
  return header + 1;
}

static bool
is_last(const void *bytes)
{
  return next != NULL && (const uint8_t *)bytes + ((const union header *)bytes - 1)->size == next;
}

static void *
request_again(void *bytes, size_t size)
{
  uint8_t *before = next;
  size_t kept = ((union header *)bytes - 1)->size;
  void *moved;
  if(is_last(bytes)) {
    next = (uint8_t *)((union header *)bytes - 1);
  }
  moved = request(size);
  if(moved == NULL) {
    next = before;
  } else if(moved != bytes) {
    memcpy(moved, bytes, kept < size ? kept : size);
  }
  return moved;
}

/* The calls of the library. */

void rattle_dealloc(void *p);

void
rattle_dealloc(void *p)
{
  if(is_last(p)) {
    next = (uint8_t *)((union header *)p - 1);
  }
}

#if UINTPTR_MAX == 0xffffffff

void *toarmuts_c_alloc(size_t size, size_t align);
void *toarmuts_c_realloc(void *p, size_t size, size_t align);

void *
toarmuts_c_alloc(size_t size, size_t align)
{
  (void)align;
  return request(size);
}

void *
toarmuts_c_realloc(void *p, size_t size, size_t align)
{
  (void)align;
  return request_again(p, size);
}

#else

/* As in toarmuts_memory.c. */
struct tried {
  bool ok;
  void *p;
};

struct tried rattle_alloc(size_t size, size_t align);
struct tried rattle_realloc(void *p, size_t kept, size_t size, size_t align);

static struct tried
answer(void *p)
{
  static char nowhere;
  struct tried tried = {p != NULL, p != NULL ? p : &nowhere};
  return tried;
}

struct tried
rattle_alloc(size_t size, size_t align)
{
  (void)align;
  return answer(request(size));
}

struct tried
rattle_realloc(void *p, size_t kept, size_t size, size_t align)
{
  (void)kept;
  (void)align;
  return answer(request_again(p, size));
}

#endif

uint32_t
toarmuts_open_in(void *block, size_t size, const struct toarmuts_configuration *configuration, uint32_t applications,
                 struct toarmuts_mote *mote)
{
  size_t gap = (ALIGNMENT - (uintptr_t)block % ALIGNMENT) % ALIGNMENT;
  uint32_t status;
  next = gap <= size ? (uint8_t *)block + gap : NULL;
  end = (uint8_t *)block + size;
  most = next;
  status = toarmuts_open(configuration, applications, mote);
  if(status == TOARMUTS_DONE) {
    used = (size_t)(most - (uint8_t *)block);
  }
  next = NULL;
  return status;
}

size_t
toarmuts_block_used(void)
{
  return used;
}
