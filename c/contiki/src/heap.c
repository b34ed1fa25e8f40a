/*
 * Heap memory: heapmem.h. As with other memory, the mote decides where blocks are and what is refused, and the bytes are in the program's
 * memory (memory.c).
 *
 * A process has 16 blocks in the mote. If it allocates more, its last one is shared: it grows, and further blocks are parts of it, each
 * after a header of 16 bytes. A part goes to the lowest gap that has room for it.
 */
#include "driver.h"

#include <stdlib.h>

enum { MOTE_BLOCKS = 16, SHARED_BLOCK = MOTE_BLOCKS - 1, MOST_BLOCKS = 64, PARTS = MOST_BLOCKS - SHARED_BLOCK, HEADER = 16 };

struct heap_block {
  void *bytes; /* NULL where there is no block */
  size_t size;
  size_t at; /* of a part: where it begins in the shared block */
  heapmem_zone_t zone;
};

/* The blocks of a process: those of the mote, and after them parts of the last one, in any order. */
struct heap_table {
  struct heap_block blocks[MOST_BLOCKS];
};

/* Those of each process; NULL for one that has never allocated a block. One takes 1 KB on a board, where few processes use the heap. */
static struct heap_table *tables[MOST_PROCESSES];

/* The table of a process that allocates. */
static struct heap_table *
table_of(const struct process *owner)
{
  struct heap_table **table = &tables[index_of(owner)];
  if(*table == NULL) {
    *table = take_bytes(sizeof **table);
  }
  return *table;
}

/* Zones: reserved parts of the heap. Their blocks may be anywhere in it. */

struct zone {
  const char *name;
  size_t size, taken;
};

/* The general zone has what no other one reserves. */
static struct zone zones[HEAPMEM_MAX_ZONES];
static unsigned zone_count = 1;

/* What a block takes of its zone. */
static size_t
taken_by(size_t size)
{
  return HEADER + (size + 3) / 4 * 4;
}

/* The bytes that all zones have. */
static size_t
heap_size(void)
{
  const struct toarmuts_heap_stats *known = &MOTE_ASK(TOARMUTS_CALL_HEAP_STATS, 0)->stats;
  return (size_t)known->allocated + known->overhead + known->available;
}

heapmem_zone_t
heapmem_zone_register(const char *name, size_t zone_size)
{
  if(name == NULL || zone_count == HEAPMEM_MAX_ZONES) {
    return HEAPMEM_ZONE_INVALID;
  }
  if(zone_count == 1) {
    zones[HEAPMEM_ZONE_GENERAL].size = heap_size();
  }
  for(unsigned i = 1; i < zone_count; i++) {
    if(strcmp(zones[i].name, name) == 0) {
      return HEAPMEM_ZONE_INVALID;
    }
  }
  if(zone_size > zones[HEAPMEM_ZONE_GENERAL].size - MIN(zones[HEAPMEM_ZONE_GENERAL].taken, zones[HEAPMEM_ZONE_GENERAL].size)) {
    return HEAPMEM_ZONE_INVALID;
  }
  zones[HEAPMEM_ZONE_GENERAL].size -= zone_size;
  zones[zone_count] = (struct zone){.name = name, .size = zone_size};
  return (heapmem_zone_t)zone_count++;
}

/* Whether a zone has room for a block of this size in place of what another one takes. With the general zone alone the mote decides. */
static bool
zone_has_room(heapmem_zone_t zone, size_t size, size_t before)
{
  return zone < zone_count && (zone_count == 1 || zones[zone].taken - before + taken_by(size) <= zones[zone].size);
}

/* Parts of the shared block. */

static bool
is_part(const struct heap_block *block)
{
  return block->bytes != NULL;
}

static size_t
end_of(const struct heap_block *part)
{
  return part->at + (part->size + 3) / 4 * 4;
}

/* Whether a part of this size may begin there: no other part, but the one that moves, is so near. */
static bool
is_gap(const struct heap_block *parts, size_t at, size_t size, const struct heap_block *moving)
{
  struct heap_block wanted = {.size = size, .at = at};
  for(unsigned i = 0; i < PARTS; i++) {
    const struct heap_block *part = &parts[i];
    if(is_part(part) && part != moving && part->at < end_of(&wanted) + HEADER && at < end_of(part) + HEADER) {
      return false;
    }
  }
  return true;
}

/* The lowest position where a part of this size may begin: the front, or after another part. */
static size_t
lowest_gap(const struct heap_block *parts, size_t size)
{
  size_t lowest = is_gap(parts, 0, size, NULL) ? 0 : SIZE_MAX;
  for(unsigned i = 0; i < PARTS; i++) {
    size_t at = is_part(&parts[i]) ? end_of(&parts[i]) + HEADER : SIZE_MAX;
    if(at < lowest && is_gap(parts, at, size, NULL)) {
      lowest = at;
    }
  }
  return lowest;
}

/* The end of the highest part but this one: 0 if there is no other. */
static size_t
end_of_others(const struct heap_block *parts, const struct heap_block *but)
{
  size_t end = 0;
  for(unsigned i = 0; i < PARTS; i++) {
    if(is_part(&parts[i]) && &parts[i] != but) {
      end = MAX(end, end_of(&parts[i]));
    }
  }
  return end;
}

static struct heap_block *
parts_of(const struct process *owner)
{
  return &table_of(owner)->blocks[SHARED_BLOCK];
}

/* Whether the shared block has parts but this one. */
static bool
has_others(const struct process *owner, const struct heap_block *block)
{
  return end_of_others(parts_of(owner), block) > 0;
}

/* `heap-alloc` or `heap-realloc` of the shared block to this length, if it is shorter; false if the mote refuses it. */
static bool
reach(struct process *owner, size_t end)
{
  size_t present = end_of_others(parts_of(owner), NULL);
  uint32_t kind = present == 0 ? TOARMUTS_CALL_HEAP_ALLOC : TOARMUTS_CALL_HEAP_REALLOC;
  return end <= UINT32_MAX && (end <= present || !check_late(refusal_of(ASK_FOR(owner, kind, SHARED_BLOCK, (uint32_t)end)) != 0));
}

/* `heap-realloc`: the highest part, which ended there, is gone or ends lower. */
static void
shorten(struct process *owner, size_t before)
{
  size_t end = end_of_others(parts_of(owner), NULL);
  if(end < before) {
    ORDER(owner, TOARMUTS_CALL_HEAP_REALLOC, SHARED_BLOCK, (uint32_t)end);
  }
}

/* Blocks. */

/* A slot in the table for a block of the active process. */
static unsigned
free_slot_of(const struct heap_table *table)
{
  unsigned slot = 0;
  while(slot < MOST_BLOCKS && table->blocks[slot].bytes != NULL) {
    slot++;
  }
  if(slot == MOST_BLOCKS) {
    stop("more than %d blocks of heap memory in one process: free one before this heapmem_alloc, have another process allocate some, or "
         "use one block for several items",
         MOST_BLOCKS);
  }
  return slot;
}

/* The block at this address, of any process, or NULL. */
static struct heap_block *
find_block(const void *ptr, struct process **owner, unsigned *slot)
{
  for(unsigned i = 0; i < process_count * MOST_BLOCKS; i++) {
    struct heap_table *table = tables[i / MOST_BLOCKS];
    if(table != NULL && table->blocks[i % MOST_BLOCKS].bytes == ptr) {
      *owner = processes[i / MOST_BLOCKS];
      *slot = i % MOST_BLOCKS;
      return &table->blocks[*slot];
    }
  }
  return NULL;
}

/* Whether the mote gives the block of a slot this size, and if it is a part where. */
static bool
allocates(struct process *owner, unsigned slot, size_t size, size_t *at)
{
  *at = 0;
  if(slot < SHARED_BLOCK || (slot == SHARED_BLOCK && !has_others(owner, NULL))) {
    return !check_late(refusal_of(MOTE_ASK(TOARMUTS_CALL_HEAP_ALLOC, slot, (uint32_t)size)) != 0);
  }
  *at = lowest_gap(parts_of(owner), size);
  return reach(owner, *at + (size + 3) / 4 * 4);
}

/* `heap-alloc` */
void *
heapmem_zone_alloc(heapmem_zone_t zone, size_t size)
{
  struct process *owner;
  struct heap_block *block;
  unsigned slot;
  size_t at;
  if(size == 0 || size > UINT32_MAX - HEADER) {
    return NULL;
  }
  if(activation == NULL) {
    stop("heap memory is allocated outside of any process");
  }
  owner = activation->process;
  slot = free_slot_of(table_of(owner));
  if(!zone_has_room(zone, size, 0) || !allocates(owner, slot, size, &at)) {
    return NULL;
  }
  block = &table_of(owner)->blocks[slot];
  *block = (struct heap_block){.bytes = take_bytes(size), .size = size, .at = at, .zone = zone};
  zones[zone].taken += taken_by(size);
  return block->bytes;
}

void *
heapmem_alloc(size_t size)
{
  return heapmem_zone_alloc(HEAPMEM_ZONE_GENERAL, size);
}

void *
heapmem_zone_calloc(heapmem_zone_t zone, size_t nmemb, size_t size)
{
  return size != 0 && nmemb > UINT32_MAX / size ? NULL : heapmem_zone_alloc(zone, nmemb * size);
}

void *
heapmem_calloc(size_t num, size_t size)
{
  return heapmem_zone_calloc(HEAPMEM_ZONE_GENERAL, num, size);
}

/* Whether the mote resizes a block, and if it is a part where that is then. */
static bool
resizes(struct process *owner, unsigned slot, const struct heap_block *block, size_t size, size_t *at)
{
  *at = block->at;
  if(slot < SHARED_BLOCK || !has_others(owner, block)) {
    /* A part that is alone goes to the front. */
    *at = 0;
    return !check_late(refusal_of(ASK_FOR(owner, TOARMUTS_CALL_HEAP_REALLOC, MIN(slot, SHARED_BLOCK), (uint32_t)size)) != 0);
  }
  if(!is_gap(parts_of(owner), *at, size, block)) {
    *at = lowest_gap(parts_of(owner), size);
  }
  return reach(owner, *at + (size + 3) / 4 * 4);
}

/* `heap-realloc`. The bytes always move, so that a sanitizer finds a pointer to the old ones. */
void *
heapmem_realloc(void *ptr, size_t size)
{
  struct process *owner;
  struct heap_block *block;
  unsigned slot;
  void *bytes;
  size_t at, end;
  if(ptr == NULL) {
    return heapmem_alloc(size);
  }
  if(size == 0) {
    heapmem_free(ptr);
    return NULL;
  }
  block = find_block(ptr, &owner, &slot);
  if(block == NULL || size > UINT32_MAX - HEADER || !zone_has_room(block->zone, size, taken_by(block->size)) ||
     !resizes(owner, slot, block, size, &at)) {
    return NULL;
  }
  end = end_of_others(parts_of(owner), NULL);
  bytes = take_bytes(size);
  memcpy(bytes, block->bytes, MIN(size, block->size));
  free(block->bytes);
  zones[block->zone].taken += taken_by(size) - taken_by(block->size);
  *block = (struct heap_block){.bytes = bytes, .size = size, .at = at, .zone = block->zone};
  if(slot >= SHARED_BLOCK && has_others(owner, block)) {
    shorten(owner, end);
  }
  return bytes;
}

/* `heap-free` */
bool
heapmem_free(void *ptr)
{
  struct process *owner;
  size_t end;
  unsigned slot;
  struct heap_block *block = ptr == NULL ? NULL : find_block(ptr, &owner, &slot);
  if(block == NULL) {
    return false;
  }
  end = end_of_others(parts_of(owner), NULL);
  zones[block->zone].taken -= taken_by(block->size);
  free(block->bytes);
  block->bytes = NULL;
  if(slot < SHARED_BLOCK || !has_others(owner, NULL)) {
    ORDER(owner, TOARMUTS_CALL_HEAP_FREE, MIN(slot, SHARED_BLOCK));
  } else {
    shorten(owner, end);
  }
  return true;
}

/* Of a process's shared block the figures of the mote say that it is one block. */
static void
count_parts(const struct heap_block *parts, heapmem_stats_t *stats)
{
  size_t end = end_of_others(parts, NULL), taken = 0, count = 0;
  for(unsigned i = 0; i < PARTS; i++) {
    if(is_part(&parts[i])) {
      taken += (parts[i].size + 3) / 4 * 4;
      count++;
    }
  }
  if(count > 1 || taken < end) {
    stats->allocated -= end - taken;
    stats->overhead += (count - 1) * HEADER;
    stats->available += end - taken - (count - 1) * HEADER;
    stats->chunks += count - 1;
  }
}

/* `heap-stats` */
void
heapmem_stats(heapmem_stats_t *stats)
{
  const struct toarmuts_heap_stats *known = &MOTE_ASK(TOARMUTS_CALL_HEAP_STATS, 0)->stats;
  check_late(true);
  stats->allocated = known->allocated;
  stats->overhead = known->overhead;
  stats->available = known->available;
  stats->footprint = known->footprint;
  stats->chunks = known->chunks;
  for(unsigned i = 0; i < process_count; i++) {
    if(tables[i] != NULL) {
      count_parts(&tables[i]->blocks[SHARED_BLOCK], stats);
    }
  }
}

void
heapmem_print_debug_info(bool print_chunks)
{
  heapmem_stats_t stats;
  heapmem_stats(&stats);
  printf("heap: %zu bytes allocated, %zu overhead, %zu available, footprint %zu, %zu chunks\n", stats.allocated, stats.overhead,
         stats.available, stats.footprint, stats.chunks);
  for(unsigned i = 0; print_chunks && i < process_count * MOST_BLOCKS; i++) {
    const struct heap_table *table = tables[i / MOST_BLOCKS];
    if(table != NULL && table->blocks[i % MOST_BLOCKS].bytes != NULL) {
      printf("chunk of %s: %zu bytes\n", name_of(processes[i / MOST_BLOCKS]), table->blocks[i % MOST_BLOCKS].size);
    }
  }
}
