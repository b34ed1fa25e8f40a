/*
 * The memory of lib/mmem.h and of lib/heapmem.h. The library has one of each, in separate members: a program that needs another size
 * compiles mmem-memory.c or heapmem-memory.c with its configuration, and the linker uses that one.
 */
#ifndef TOARMUTS_MEMORY_H
#define TOARMUTS_MEMORY_H

#include "toarmuts/calls.h"

TOARMUTS_BEGIN

struct mmem;

/* The bytes, and beside them a row and the owner of each block. */
struct toarmuts_mmem_memory {
  unsigned char *bytes;
  size_t size;
  struct toarmuts_managed_row *rows;
  struct mmem **owners;
  size_t num;
};

extern const struct toarmuts_mmem_memory toarmuts_mmem_memory;

/* A zone of the heap, and the number of bytes of its blocks. Its name is NULL if it is unused. */
struct toarmuts_heap_zone {
  const char *name;
  size_t size;
  size_t taken;
};

/* The bytes, and beside them a row of each block, the zone of the block that begins at each 16th byte, and the zones. */
struct toarmuts_heap_memory {
  unsigned char *bytes;
  size_t size;
  struct toarmuts_heap_row *rows;
  size_t num;
  uint8_t *zone_of;
  struct toarmuts_heap_zone *zones;
  size_t zone_num;
};

extern const struct toarmuts_heap_memory toarmuts_heap_memory;

/* The row of the heap's block of this number, for heapmem_print_debug_info: the lowest block is number 0. false after the last. */
bool toarmuts_heap_row_at(size_t number, struct toarmuts_heap_row *row);

TOARMUTS_END

#endif
