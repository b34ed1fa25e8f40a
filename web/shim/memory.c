/*
 * The memory that the mote asks for, from the malloc of wasi-libc. Nothing proves this file: it replaces toarmuts_memory.c of a
 * native build. Sizes and addresses have 64 bits here, as in the module that the proof's build makes.
 */
#include "shim.h"

static struct tried
reply(void *block)
{
  static uint8_t nowhere;
  return (struct tried){block != nullptr, (uintptr_t)(block != nullptr ? block : &nowhere)};
}

static bool
fits(uint64_t size)
{
  return size <= UINT32_MAX;
}

struct tried
rattle_alloc(uint64_t size, uint64_t align)
{
  return reply(fits(size) ? malloc((size_t)(size != 0 ? size : align)) : nullptr);
}

/* The first kept bytes stay as they are. */
struct tried
rattle_realloc(void *block, uint64_t kept, uint64_t size, uint64_t align)
{
  (void)kept;
  return reply(fits(size) ? realloc(block, (size_t)(size != 0 ? size : align)) : nullptr);
}

void
rattle_dealloc(void *block)
{
  free(block);
}

/* Memory for bytes that the page passes; NULL if there is none. */
__attribute__((export_name("page_alloc"))) void *
page_alloc(size_t size)
{
  return malloc(size != 0 ? size : 1);
}

__attribute__((export_name("page_free"))) void
page_free(void *block)
{
  free(block);
}
