/* malloc: the first block that is long enough, in the order of their addresses; what is freed joins its neighbours. The C library's own
 * takes pages of 4,096 bytes, which a part with 64 KB doesn't have. */
#include "firmware.h"

#include <errno.h>
#include <reent.h>
#include <stdlib.h>

struct block {
  size_t size; /* with this header; a multiple of 8 */
  struct block *next;
};

static struct block *unused;
static uint8_t *heap_end = board_heap_start;
static const uint8_t *limit;

void
limit_heap(const uint8_t *to)
{
  limit = to;
}

void
free(void *bytes)
{
  struct block *block = (struct block *)bytes - 1, **place = &unused, *before = NULL;
  if(bytes == NULL) {
    return;
  }
  while(*place != NULL && *place < block) {
    before = *place;
    place = &before->next;
  }
  block->next = *place;
  *place = block;
  if(block->next != NULL && (uint8_t *)block + block->size == (uint8_t *)block->next) {
    block->size += block->next->size;
    block->next = block->next->next;
  }
  if(before != NULL && (uint8_t *)before + before->size == (uint8_t *)block) {
    before->size += block->size;
    before->next = block->next;
  }
}

void *
malloc(size_t wanted)
{
  size_t size = (wanted + sizeof(struct block) + 7) & ~(size_t)7;
  struct block *block;
  if(size < wanted) {
    return NULL;
  }
  for(struct block **place = &unused; (block = *place) != NULL; place = &block->next) {
    if(block->size >= size) {
      if(block->size - size >= 2 * sizeof *block) {
        struct block *rest = (struct block *)((uint8_t *)block + size);
        *rest = (struct block){block->size - size, block->next};
        *place = rest;
        block->size = size;
      } else {
        *place = block->next;
      }
      return block + 1;
    }
  }
  if(heap_end > limit || size > (size_t)(limit - heap_end)) {
    errno = ENOMEM;
    return NULL;
  }
  block = (struct block *)heap_end;
  heap_end += size;
  block->size = size;
  return block + 1;
}

void *
calloc(size_t count, size_t size)
{
  void *bytes = size != 0 && count > SIZE_MAX / size ? NULL : malloc(count * size);
  return bytes == NULL ? NULL : memset(bytes, 0, count * size);
}

/* As that of the GNU C library, it frees a block that gets the size 0. */
void *
realloc(void *bytes, size_t size)
{
  size_t kept = bytes == NULL ? 0 : ((struct block *)bytes - 1)->size - sizeof(struct block);
  void *moved = bytes != NULL && size == 0 ? NULL : malloc(size);
  if(bytes != NULL && size == 0) {
    free(bytes);
  } else if(moved != NULL) {
    memcpy(moved, bytes, kept < size ? kept : size);
    free(bytes);
  }
  return moved;
}

void *
_malloc_r(struct _reent *reent, size_t size)
{
  (void)reent;
  return malloc(size);
}

void *
_calloc_r(struct _reent *reent, size_t count, size_t size)
{
  (void)reent;
  return calloc(count, size);
}

void *
_realloc_r(struct _reent *reent, void *bytes, size_t size)
{
  (void)reent;
  return realloc(bytes, size);
}

void
_free_r(struct _reent *reent, void *bytes)
{
  (void)reent;
  free(bytes);
}
