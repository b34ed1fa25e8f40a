/* The calls by which the library asks for memory: so many of them are granted, and the others are refused. */
#ifndef REFUSING_MEMORY_H
#define REFUSING_MEMORY_H

#include <stdbool.h>
#include <stddef.h>
#include <stdint.h>
#include <stdlib.h>

/* How many calls for memory came, how many of them are granted, and how many blocks are out. */
static long asked, granted, out;

/* What the library asks for memory with, as toarmuts_memory.c has it. */
#if UINTPTR_MAX == 0xffffffff

void *toarmuts_c_alloc(size_t size, size_t align);
void *toarmuts_c_realloc(void *p, size_t size, size_t align);

void *
toarmuts_c_alloc(size_t size, size_t align)
{
  if(asked++ >= granted) {
    return NULL;
  }
  out++;
  return malloc(size != 0 ? size : align);
}

void *
toarmuts_c_realloc(void *p, size_t size, size_t align)
{
  return asked++ < granted ? realloc(p, size != 0 ? size : align) : NULL;
}

#else

struct tried {
  bool ok;
  void *p;
};

struct tried rattle_alloc(size_t size, size_t align);
struct tried rattle_realloc(void *p, size_t kept, size_t size, size_t align);

static struct tried
answer(void *p)
{
  static char nowhere;
  struct tried tried = {p != NULL, p != NULL ? p : &nowhere};
  return tried;
}

struct tried
rattle_alloc(size_t size, size_t align)
{
  if(asked++ >= granted) {
    return answer(NULL);
  }
  out++;
  return answer(malloc(size != 0 ? size : align));
}

struct tried
rattle_realloc(void *p, size_t kept, size_t size, size_t align)
{
  (void)kept;
  return asked++ < granted ? answer(realloc(p, size != 0 ? size : align)) : answer(NULL);
}

#endif

void rattle_dealloc(void *p);

void
rattle_dealloc(void *p)
{
  out--;
  free(p);
}

#endif
