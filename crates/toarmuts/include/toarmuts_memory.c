/*
 * The memory that libtoarmuts.a asks for, from malloc. A caller with a heap of its own defines these three calls in its place;
 * blocks begin at multiples of 16.
 */
#include <stdbool.h>
#include <stddef.h>
#include <stdint.h>
#include <stdlib.h>

#if UINTPTR_MAX == 0xffffffff

/* With addresses of 32 bits: NULL where there is no memory, and alignments of at most 8. docs/boards.md has more. */
void *toarmuts_c_alloc(size_t size, size_t align);
void *toarmuts_c_realloc(void *p, size_t size, size_t align);

void *
toarmuts_c_alloc(size_t size, size_t align)
{
  return malloc(size != 0 ? size : align);
}

void *
toarmuts_c_realloc(void *p, size_t size, size_t align)
{
  return realloc(p, size != 0 ? size : align);
}

#else

/* Whether there is memory, and where it begins; where there is none, p is any address of the caller's. */
struct tried {
  bool ok;
  void *p;
};

struct tried rattle_alloc(size_t size, size_t align);
struct tried rattle_realloc(void *p, size_t kept, size_t size, size_t align);

static struct tried
answer(void *p)
{
  static char nowhere;
  struct tried tried = {p != NULL, p != NULL ? p : &nowhere};
  return tried;
}

struct tried
rattle_alloc(size_t size, size_t align)
{
  return answer(malloc(size != 0 ? size : align));
}

/* The first kept bytes stay as they are. */
struct tried
rattle_realloc(void *p, size_t kept, size_t size, size_t align)
{
  (void)kept;
  return answer(realloc(p, size != 0 ? size : align));
}

#endif

void rattle_dealloc(void *p);

void
rattle_dealloc(void *p)
{
  free(p);
}
