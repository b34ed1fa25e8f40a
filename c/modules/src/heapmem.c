/*
 * heapmem.h over the proved calls on rows: sizes are rounded up so that blocks are aligned, places made pointers, and zones kept
 * within their sizes here, in C.
 */
#include "guard.h"
#include "lib/heapmem.h"
#include "toarmuts/memory.h"

#include <string.h>

/* How many rows have a block: those from the first on. */
static size_t used;
static size_t max_footprint;

/* What a block of this size takes; 0 where that exceeds a size_t. */
static size_t
rounded(size_t size)
{
  return size == 0 ? TOARMUTS_ALIGNMENT : TOARMUTS_ALIGNED(size);
}

static uint8_t *
zone_at(uint64_t place)
{
  return &toarmuts_heap_memory.zone_of[place / TOARMUTS_ALIGNMENT];
}

/* How many bytes a zone has left beside a block of this size; none where there is no such zone. */
static size_t
left_in(heapmem_zone_t zone, size_t beside)
{
  if(zone >= toarmuts_heap_memory.zone_num || toarmuts_heap_memory.zones[zone].name == NULL) {
    return 0;
  }
  size_t taken = toarmuts_heap_memory.zones[zone].taken - beside;
  size_t size = toarmuts_heap_memory.zones[zone].size;
  return taken < size ? size - taken : 0;
}

/* The place that a pointer names; the heap's size where it points elsewhere. */
static size_t
place_of(const void *ptr)
{
  uintptr_t start = (uintptr_t)toarmuts_heap_memory.bytes, at = (uintptr_t)ptr;
  return at >= start && at - start < toarmuts_heap_memory.size ? at - start : toarmuts_heap_memory.size;
}

/* The size of the block that begins at a place of the heap; 0 where none does. The rows are in the order of their places. */
static size_t
size_at(size_t place)
{
  const struct toarmuts_heap_row *rows = toarmuts_heap_memory.rows;
  size_t low = 0, high = used;
  if(place >= toarmuts_heap_memory.size) {
    return 0;
  }
  uint32_t wanted = (uint32_t)place;
  while(low < high) {
    size_t middle = low + (high - low) / 2;
    if(rows[middle].place < wanted) {
      low = middle + 1;
    } else {
      high = middle;
    }
  }
  return low < used && rows[low].place == wanted ? toarmuts_heap_row_size(&rows[low]) : 0;
}

/* A block of a zone has another size now. */
static void
note_taken(heapmem_zone_t zone, size_t before, size_t now)
{
  if(zone < toarmuts_heap_memory.zone_num) {
    toarmuts_heap_memory.zones[zone].taken += now - before;
  }
}

/* After a call that made or resized a block, which ends there. One that has a rest of a gap beside its size isn't the last one. */
static void
note_footprint(size_t end)
{
  if(end > max_footprint) {
    max_footprint = end;
  }
}

/* Marks the bytes that no block has: before a call that may put a block there, and after it. */
static void
mark_gaps(void (*mark)(const void *place, size_t size))
{
  size_t end = 0;
  if(!is_guarded()) {
    return;
  }
  for(size_t i = 0; i < used; i++) {
    const struct toarmuts_heap_row *row = &toarmuts_heap_memory.rows[i];
    size_t size = toarmuts_heap_row_size(row);
    if(row->place < end || row->place > toarmuts_heap_memory.size || size > toarmuts_heap_memory.size - row->place) {
      /* Somebody wrote to the rows, and the calls refuse them. */
      return;
    }
    mark(toarmuts_heap_memory.bytes + end, row->place - end);
    end = row->place + size;
  }
  mark(toarmuts_heap_memory.bytes + end, toarmuts_heap_memory.size - end);
}

/* Of a block's bytes the first ones may be used, as many as were asked for. */
static void
open_block(uint64_t place, size_t size, size_t taken)
{
  unsigned char *block = toarmuts_heap_memory.bytes + (size_t)place;
  open_bytes(block, size);
  guard_bytes(block + size, taken - size);
}

heapmem_zone_t
heapmem_zone_register(const char *name, size_t zone_size)
{
  if(name == NULL || zone_size > left_in(HEAPMEM_ZONE_GENERAL, 0)) {
    return HEAPMEM_ZONE_INVALID;
  }
  for(size_t i = 0; i < toarmuts_heap_memory.zone_num; i++) {
    struct toarmuts_heap_zone *zone = &toarmuts_heap_memory.zones[i];
    if(zone->name == NULL) {
      zone->name = name;
      zone->size = zone_size;
      toarmuts_heap_memory.zones[HEAPMEM_ZONE_GENERAL].size -= zone_size;
      return (heapmem_zone_t)i;
    }
    if(strcmp(zone->name, name) == 0) {
      return HEAPMEM_ZONE_INVALID;
    }
  }
  return HEAPMEM_ZONE_INVALID;
}

void *
heapmem_zone_alloc(heapmem_zone_t zone, size_t size)
{
  size_t wanted = rounded(size);
  uint64_t place;
  if(wanted < size || wanted > left_in(zone, 0) || used == toarmuts_heap_memory.num) {
    return NULL;
  }
  mark_gaps(open_bytes);
  if(toarmuts_heapmem_alloc(toarmuts_heap_memory.rows, used + 1, toarmuts_heap_memory.bytes, toarmuts_heap_memory.size, wanted, &place) !=
     TOARMUTS_HEAP_DONE) {
    mark_gaps(guard_bytes);
    return NULL;
  }
  used++;
  mark_gaps(guard_bytes);
  open_block(place, size, wanted);
  *zone_at(place) = zone;
  note_taken(zone, 0, wanted);
  note_footprint((size_t)place + wanted);
  return toarmuts_heap_memory.bytes + (size_t)place;
}

void *
heapmem_alloc(size_t size)
{
  return heapmem_zone_alloc(HEAPMEM_ZONE_GENERAL, size);
}

/* A new block's bytes are 0 anyway. */
void *
heapmem_zone_calloc(heapmem_zone_t zone, size_t nmemb, size_t size)
{
  if(size != 0 && nmemb > SIZE_MAX / size) {
    return NULL;
  }
  return heapmem_zone_alloc(zone, nmemb * size);
}

void *
heapmem_calloc(size_t nmemb, size_t size)
{
  return heapmem_zone_calloc(HEAPMEM_ZONE_GENERAL, nmemb, size);
}

/* The rows have rounded sizes, so a block's bytes from its size to there are made 0 here: where it grows later, 0 follows. */
void *
heapmem_realloc(void *ptr, size_t size)
{
  if(ptr == NULL) {
    return heapmem_alloc(size);
  }
  if(size == 0) {
    heapmem_free(ptr);
    return NULL;
  }
  size_t wanted = rounded(size), old = size_at(place_of(ptr));
  uint64_t place = place_of(ptr);
  if(wanted < size || old == 0) {
    return NULL;
  }
  heapmem_zone_t zone = *zone_at(place);
  if(wanted > left_in(zone, old)) {
    return NULL;
  }
  size_t usable = count_open_bytes(ptr, old);
  mark_gaps(open_bytes);
  open_bytes(ptr, old);
  if(toarmuts_heapmem_realloc(toarmuts_heap_memory.rows, used, toarmuts_heap_memory.bytes, toarmuts_heap_memory.size, &place, wanted) !=
     TOARMUTS_HEAP_DONE) {
    mark_gaps(guard_bytes);
    open_block(place, usable, old);
    return NULL;
  }
  *zone_at(place) = zone;
  note_taken(zone, old, wanted);
  note_footprint((size_t)place + wanted);
  memset(toarmuts_heap_memory.bytes + (size_t)place + size, 0, wanted - size);
  mark_gaps(guard_bytes);
  open_block(place, size, wanted);
  return toarmuts_heap_memory.bytes + (size_t)place;
}

bool
heapmem_free(void *ptr)
{
  size_t place = place_of(ptr), size = size_at(place);
  if(toarmuts_heapmem_free(toarmuts_heap_memory.rows, used, toarmuts_heap_memory.bytes, toarmuts_heap_memory.size, place) !=
     TOARMUTS_HEAP_DONE) {
    return false;
  }
  used--;
  note_taken(*zone_at(place), size, 0);
  guard_bytes(ptr, size);
  return true;
}

void
heapmem_stats(heapmem_stats_t *stats)
{
  struct toarmuts_heap_stats figures;
  if(stats == NULL) {
    return;
  }
  memset(stats, 0, sizeof *stats);
  if(toarmuts_heapmem_stats(toarmuts_heap_memory.rows, used, toarmuts_heap_memory.bytes, toarmuts_heap_memory.size, &figures) ==
     TOARMUTS_HEAP_DONE) {
    stats->allocated = (size_t)figures.allocated;
    stats->available = (size_t)figures.available;
    stats->footprint = (size_t)figures.footprint;
    stats->chunks = (size_t)figures.chunks;
  }
  stats->max_footprint = max_footprint;
}

size_t
heapmem_alignment(void)
{
  return TOARMUTS_ALIGNMENT;
}

bool
toarmuts_heap_row_at(size_t number, struct toarmuts_heap_row *row)
{
  if(number >= used) {
    return false;
  }
  *row = toarmuts_heap_memory.rows[number];
  return true;
}
