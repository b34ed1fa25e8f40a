/*
 * The proved calls, which crates/modules_c exports with their contracts. A slice is a pointer and a length; a pointer is never NULL
 * here, also where the length is 0. Numbers have 64 bits on every processor, as the proved `usize` has.
 */
#ifndef TOARMUTS_CALLS_H
#define TOARMUTS_CALLS_H

#include "toarmuts/common.h"

TOARMUTS_BEGIN

void toarmuts_memb_init(bool *used, uint64_t num);
uint64_t toarmuts_memb_alloc(bool *used, uint64_t num);
bool toarmuts_memb_free(bool *used, uint64_t num, uint64_t block);
uint64_t toarmuts_memb_numfree(const bool *used, uint64_t num);

/* A row of managed memory: the offset of a handle's block, and its number of bytes; 0 if there is no block. A memory has fewer than
   2^32 bytes, so 32 bits are enough. */
struct toarmuts_managed_row {
  uint32_t place;
  uint32_t size;
};

TOARMUTS_ASSERT(sizeof(struct toarmuts_managed_row) == 8, "a row of managed memory has 8 bytes, as the proved one");

void toarmuts_mmem_init(struct toarmuts_managed_row *rows, uint64_t num);
uint8_t toarmuts_mmem_alloc(struct toarmuts_managed_row *rows, uint64_t num, uint8_t *bytes, uint64_t size, uint64_t handle,
                            uint64_t wanted);
bool toarmuts_mmem_free(struct toarmuts_managed_row *rows, uint64_t num, uint64_t handle);
uint64_t toarmuts_mmem_place(const struct toarmuts_managed_row *rows, uint64_t num, uint64_t size, uint64_t handle);
uint64_t toarmuts_mmem_avail(const struct toarmuts_managed_row *rows, uint64_t num, uint64_t size);

/* A row of the heap: the offset of a block; and 32 times the number of its bytes, plus the number of further bytes reserved for it. The
   rows are sorted by offset. A heap has fewer than 2^27 bytes, so 32 bits are enough. */
struct toarmuts_heap_row {
  uint32_t place;
  uint32_t extent;
};

TOARMUTS_ASSERT(sizeof(struct toarmuts_heap_row) == 8, "a row of the heap has 8 bytes, as the proved one");

/* The number of a block's bytes. */
static inline uint32_t
toarmuts_heap_row_size(const struct toarmuts_heap_row *row)
{
  return row->extent / 32;
}

/* The number of bytes reserved for a block. */
static inline uint32_t
toarmuts_heap_row_room(const struct toarmuts_heap_row *row)
{
  return row->extent / 32 + row->extent % 32;
}

/* The result of a call on the heap. */
enum toarmuts_heap_status {
  TOARMUTS_HEAP_DONE = 0,     /* as it was asked for */
  TOARMUTS_HEAP_NO_TABLE = 1, /* the rows are invalid: somebody else wrote to them; or the heap has 2^27 bytes or more */
  TOARMUTS_HEAP_NO_BLOCK = 2, /* no block begins there */
  TOARMUTS_HEAP_NO_ROOM = 3,  /* no gap is large enough */
  TOARMUTS_HEAP_NO_ROW = 4    /* there is no row for another block */
};

struct toarmuts_heap_stats {
  uint64_t allocated;
  uint64_t available;
  uint64_t footprint;
  uint64_t chunks;
};

/* The last of num rows is unused when toarmuts_heapmem_alloc is called, and after toarmuts_heapmem_free, if they return DONE. */
uint8_t toarmuts_heapmem_alloc(struct toarmuts_heap_row *rows, uint64_t num, uint8_t *bytes, uint64_t size, uint64_t wanted,
                               uint64_t *place);
uint8_t toarmuts_heapmem_realloc(struct toarmuts_heap_row *rows, uint64_t num, uint8_t *bytes, uint64_t size, uint64_t *place,
                                 uint64_t wanted);
uint8_t toarmuts_heapmem_free(struct toarmuts_heap_row *rows, uint64_t num, const uint8_t *bytes, uint64_t size, uint64_t place);
uint8_t toarmuts_heapmem_stats(const struct toarmuts_heap_row *rows, uint64_t num, const uint8_t *bytes, uint64_t size,
                               struct toarmuts_heap_stats *stats);

bool toarmuts_ringbuf_put(uint8_t *data, uint64_t size, uint8_t *put, uint8_t get, uint8_t byte);
bool toarmuts_ringbuf_get(const uint8_t *data, uint64_t size, uint8_t put, uint8_t *get, uint8_t *byte);
uint64_t toarmuts_ringbuf_elements(const uint8_t *data, uint64_t size, uint8_t put, uint8_t get);

TOARMUTS_END

#endif
