/*
 * Heap memory: worked calls, wrong arguments, zones, a million random calls beside a plain model, which keeps of each 16 bytes
 * whose they are and looks for places there, and the proved calls on rows with anything in them. The heap has 1,024 bytes
 * (HEAPMEM_CONF_ARENA_SIZE) and 3 zones.
 */
#include "lib/heapmem.h"
#include "toarmuts/memory.h"

#include "check.h"

#include <stdlib.h>
#include <string.h>

enum { SIZE = 1024, UNITS = SIZE / 16, BLOCKS = 40, LONGEST = 200, NOBODY = -1 };

static unsigned char *
heap(void)
{
  return toarmuts_heap_memory.bytes;
}

static void
check_worked_calls(void)
{
  heapmem_stats_t stats;
  unsigned char *a = heapmem_alloc(40), *b = heapmem_alloc(17), *c = heapmem_alloc(100), *d = heapmem_alloc(1);
  check("one behind the other", a == heap() && b == a + 48 && c == b + 32 && d == c + 112);
  heapmem_stats(&stats);
  check("figures", stats.allocated == 208 && stats.overhead == 0 && stats.available == SIZE - 208 && stats.footprint == 208 &&
                     stats.max_footprint == 208 && stats.chunks == 4);
  check("freed", heapmem_free(b) && heapmem_free(c));
  check("one gap of both, the lowest place", heapmem_alloc(120) == b);
  check("a rest of 16 goes along", heapmem_free(b) && heapmem_alloc(128) == b && heapmem_alloc(16) == d + 16);
  memset(a, 7, 40);
  unsigned char *moved = heapmem_realloc(a, 60);
  check("it moves with its bytes, and zeros follow", moved == d + 32 && moved[39] == 7 && moved[48] == 0 && moved[59] == 0);
  check("a small one where it was", heapmem_calloc(3, 10) == a);
  check("grown where it is", heapmem_realloc(moved, 200) == moved && moved[39] == 7 && moved[199] == 0);
  heapmem_free(a);
  heapmem_free(b);
  heapmem_free(d);
  heapmem_free(d + 16);
  heapmem_free(moved);
  heapmem_stats(&stats);
  check("empty again", stats.chunks == 0 && stats.footprint == 0 && stats.available == SIZE && stats.max_footprint >= 400);
  check("alignment", heapmem_alignment() == 16);
}

static void
check_wrong_arguments(void)
{
  struct toarmuts_heap_row row;
  heapmem_stats_t stats;
  int outside;
  unsigned char *a = heapmem_alloc(40);
  check("nothing to free", !heapmem_free(NULL) && !heapmem_free(&outside) && !heapmem_free(heap() + SIZE));
  check("within a block", !heapmem_free(a + 1) && !heapmem_free(a + 16) && heapmem_realloc(a + 16, 5) == NULL);
  check("too many bytes", heapmem_alloc(SIZE) == NULL && heapmem_alloc(SIZE_MAX) == NULL && heapmem_alloc(SIZE_MAX - 15) == NULL);
  check("a product that is none", heapmem_calloc(SIZE_MAX / 2, 3) == NULL && heapmem_calloc(SIZE_MAX, SIZE_MAX) == NULL);
  check("resized to too much", heapmem_realloc(a, SIZE_MAX) == NULL && heapmem_realloc(a, SIZE + 1) == NULL);
  check("no figures", (heapmem_stats(NULL), true));
  row = toarmuts_heap_memory.rows[0];
  toarmuts_heap_memory.rows[0].extent = (SIZE + 1) * 32;
  heapmem_stats(&stats);
  check("spoilt rows", heapmem_alloc(1) == NULL && !heapmem_free(a) && heapmem_realloc(a, 1) == NULL && stats.chunks == 0);
  toarmuts_heap_memory.rows[0].place = UINT32_MAX;
  check("spoilt places", heapmem_alloc(1) == NULL && !heapmem_free(a) && heapmem_realloc(a, 1) == NULL);
  toarmuts_heap_memory.rows[0] = row;
  check("freed, and not twice", heapmem_free(a) && !heapmem_free(a));
  a = heapmem_realloc(NULL, 5);
  check("resized from nothing and to nothing", a == heap() && heapmem_realloc(a, 0) == NULL && !heapmem_free(a));
  a = heapmem_alloc(0);
  check("a block of no bytes", a == heap() && heapmem_free(a));
}

/* A block of 16 bytes, all 7, that shrinks and grows again: the first bytes stay, and what it lost comes back as 0. */
static void
check_grown_again(void)
{
  static const size_t larger[] = {16, 32, 200};
  for(size_t i = 0; i < sizeof larger / sizeof *larger; i++) {
    unsigned char *a = heapmem_alloc(16);
    memset(a, 7, 16);
    check("shrunk and grown where it is", heapmem_realloc(a, 5) == a && heapmem_realloc(a, larger[i]) == a && a[4] == 7);
    bool is_zero = true;
    for(size_t at = 5; at < larger[i]; at++) {
      is_zero = is_zero && a[at] == 0;
    }
    check("what it lost comes back as 0", is_zero && heapmem_free(a));
  }
  unsigned char *a = heapmem_alloc(30), *b = heapmem_alloc(1);
  memset(a, 7, 30);
  unsigned char *moved = heapmem_realloc(heapmem_realloc(a, 20), 40);
  check("the same where it moves", moved != a && moved[19] == 7 && moved[20] == 0 && moved[29] == 0 && moved[39] == 0);
  check("all given back", heapmem_free(b) && heapmem_free(moved));
}

/* A block takes 16 bytes at least, and there is a row for each that may be there. */
static void
check_many_blocks(void)
{
  unsigned char *blocks[UNITS];
  bool holds = true;
  for(size_t i = 0; i < UNITS; i++) {
    blocks[i] = heapmem_alloc(1);
    holds = holds && blocks[i] == heap() + 16 * i;
  }
  check("as many as there is room for", holds && heapmem_alloc(1) == NULL);
  for(size_t i = 0; i < UNITS; i++) {
    holds = heapmem_free(blocks[i]) && holds;
  }
  check("and all given back", holds);
}

static void
check_zones(void)
{
  unsigned char *some = heapmem_alloc(SIZE / 2);
  check("no more than what is left", heapmem_zone_register("large", SIZE / 2 + 1) == HEAPMEM_ZONE_INVALID && heapmem_free(some));
  heapmem_zone_t one = heapmem_zone_register("one", 64);
  check("a known name",
        heapmem_zone_register("one", 16) == HEAPMEM_ZONE_INVALID && heapmem_zone_register("general", 16) == HEAPMEM_ZONE_INVALID);
  check("two zones beside the general one", one == 1 && heapmem_zone_register("two", 16) == 2);
  check("no name, too many",
        heapmem_zone_register(NULL, 16) == HEAPMEM_ZONE_INVALID && heapmem_zone_register("three", 16) == HEAPMEM_ZONE_INVALID);
  unsigned char *a = heapmem_zone_alloc(one, 33);
  check("no more than its bytes", a != NULL && heapmem_zone_alloc(one, 17) == NULL && heapmem_zone_calloc(one, 2, 9) == NULL);
  check("nor when it grows", heapmem_realloc(a, 65) == NULL && heapmem_realloc(a, 64) == a && heapmem_zone_alloc(one, 1) == NULL);
  check("the general zone has the rest", heapmem_alloc(SIZE - 80 + 1) == NULL);
  check("no such zone", heapmem_zone_alloc(3, 1) == NULL && heapmem_zone_alloc(HEAPMEM_ZONE_INVALID, 1) == NULL);
  check("given back", heapmem_free(a) && heapmem_zone_alloc(one, 64) == a && heapmem_free(a));
  a = heapmem_zone_alloc(one, 16);
  unsigned char *b = heapmem_alloc(16), *moved = heapmem_realloc(a, 48);
  check("it moves in its zone", moved == b + 16 && heapmem_zone_alloc(one, 17) == NULL && heapmem_free(moved));
  check("and is given back there", heapmem_zone_alloc(one, 64) == b + 16 && heapmem_free(b + 16) && heapmem_free(b));
}

/* Whose each unit of 16 bytes is, and each block's pointer, size and bytes. */
static int whose[UNITS];
static struct {
  unsigned char *pointer;
  size_t size;
  unsigned char bytes[LONGEST];
} model[BLOCKS];

static size_t
units_of(size_t size)
{
  return size == 0 ? 1 : (size + 15) / 16;
}

static size_t
run_from(size_t unit)
{
  size_t n = 0;
  while(unit + n < UNITS && whose[unit + n] == NOBODY) {
    n++;
  }
  return n;
}

static size_t
footprint_in_model(void)
{
  size_t end = UNITS;
  while(end > 0 && whose[end - 1] == NOBODY) {
    end--;
  }
  return end;
}

/* A rest of one unit goes along. */
static size_t
taken(size_t wanted, size_t gap)
{
  return gap - wanted > 1 ? wanted : gap;
}

/* Where a block goes, and how many units it takes; UNITS where it goes nowhere. */
static size_t
place_in_model(size_t wanted, size_t *takes)
{
  size_t top = footprint_in_model(), best = UNITS;
  for(size_t unit = 0; unit < top; unit++) {
    size_t gap = unit == 0 || whose[unit - 1] != NOBODY ? run_from(unit) : 0;
    if(gap >= wanted && (best == UNITS || gap < run_from(best))) {
      best = unit;
    }
  }
  if(best < UNITS) {
    *takes = taken(wanted, run_from(best));
    return best;
  }
  *takes = wanted;
  return UNITS - top >= wanted ? top : UNITS;
}

static void
give(size_t first, size_t units, int owner)
{
  for(size_t i = 0; i < units; i++) {
    whose[first + i] = owner;
  }
}

static void
forget(int block)
{
  for(size_t i = 0; i < UNITS; i++) {
    whose[i] = whose[i] == block ? NOBODY : whose[i];
  }
  model[block].pointer = NULL;
}

/* The block has the bytes of the model at its front; then both get random ones. */
static bool
refilled(int block, size_t kept)
{
  if(memcmp(model[block].pointer, model[block].bytes, kept) != 0) {
    return false;
  }
  for(size_t k = 0; k < model[block].size; k++) {
    model[block].pointer[k] = model[block].bytes[k] = (unsigned char)next_random();
  }
  return true;
}

static bool
allocates_as_in_model(int block, size_t size)
{
  size_t units, place = place_in_model(units_of(size), &units);
  unsigned char *pointer = next_random() % 2 == 0 ? heapmem_alloc(size) : heapmem_calloc(1, size);
  if(place == UNITS) {
    return pointer == NULL;
  }
  give(place, units, block);
  model[block].pointer = pointer;
  model[block].size = size;
  memset(model[block].bytes, 0, size);
  return pointer == heap() + 16 * place && refilled(block, size);
}

/* How many units the block has after it was resized where it is; 0 where it can't be. */
static size_t
units_in_place(size_t first, size_t room, size_t wanted)
{
  size_t end = first + room, gap = run_from(end);
  if(wanted <= room) {
    return taken(wanted, room);
  }
  if(wanted > room + gap) {
    return 0;
  }
  return end + gap == UNITS ? wanted : taken(wanted, room + gap);
}

static bool
resizes_as_in_model(int block, size_t size)
{
  size_t first = (size_t)(model[block].pointer - heap()) / 16, room = 0, old = model[block].size;
  while(first + room < UNITS && whose[first + room] == block) {
    room++;
  }
  size_t place = first, units = units_in_place(first, room, units_of(size));
  if(units == 0) {
    place = place_in_model(units_of(size), &units);
  }
  unsigned char *pointer = heapmem_realloc(model[block].pointer, size);
  if(size == 0) {
    forget(block);
    return pointer == NULL;
  }
  if(place == UNITS) {
    return pointer == NULL;
  }
  forget(block);
  give(place, units, block);
  model[block].pointer = pointer;
  model[block].size = size;
  if(size > old) {
    memset(model[block].bytes + old, 0, size - old);
  }
  return pointer == heap() + 16 * place && refilled(block, size);
}

/* The greatest footprint so far. */
static size_t greatest;

static bool
has_the_bytes(void)
{
  heapmem_stats_t stats;
  size_t taken_units = 0, chunks = 0;
  for(int i = 0; i < BLOCKS; i++) {
    if(model[i].pointer != NULL && memcmp(model[i].pointer, model[i].bytes, model[i].size) != 0) {
      return false;
    }
    chunks += model[i].pointer != NULL;
  }
  for(size_t i = 0; i < UNITS; i++) {
    taken_units += whose[i] != NOBODY;
  }
  greatest = 16 * footprint_in_model() > greatest ? 16 * footprint_in_model() : greatest;
  heapmem_stats(&stats);
  return stats.allocated == 16 * taken_units && stats.available == SIZE - stats.allocated && stats.footprint == 16 * footprint_in_model() &&
         stats.chunks == chunks && stats.max_footprint == greatest;
}

static bool
is_as_in_model(void)
{
  int block = (int)(next_random() % BLOCKS);
  size_t size = next_random() % LONGEST;
  unsigned char *pointer = model[block].pointer;
  if(next_random() % 8 == 0) {
    return !heapmem_free(heap() + 16 * (next_random() % UNITS) + 1 + next_random() % 15);
  }
  if(pointer == NULL) {
    return allocates_as_in_model(block, size);
  }
  if(next_random() % 2 == 0) {
    forget(block);
    return heapmem_free(pointer) && !heapmem_free(pointer);
  }
  return resizes_as_in_model(block, size);
}

static void
check_random_calls(void)
{
  bool holds = true;
  heapmem_stats_t stats;
  heapmem_stats(&stats);
  greatest = stats.max_footprint;
  give(0, UNITS, NOBODY);
  for(int i = 0; i < RANDOM_CALLS && holds; i++) {
    holds = is_as_in_model() && has_the_bytes();
  }
  check("random calls", holds);
  for(int i = 0; i < BLOCKS; i++) {
    heapmem_free(model[i].pointer);
  }
}

/* A number up to a bit more than that, and now and then one of the largest. */
static size_t
any_number(size_t most)
{
  return next_random() % 16 == 0 ? SIZE_MAX - next_random() % 3 : next_random() % (most + 2);
}

/* Whether each row has room, and these lie in so many bytes, each behind the one before. */
static bool
is_table(const struct toarmuts_heap_row *rows, size_t num, size_t size)
{
  uint64_t next = 0;
  for(size_t i = 0; i < num; i++) {
    size_t room = toarmuts_heap_row_room(&rows[i]);
    if(room == 0 || rows[i].place < next || rows[i].place > size || room > size - rows[i].place) {
      return false;
    }
    next = rows[i].place + room;
  }
  return true;
}

/* Each proved call on such rows, the last of which is spare for a new block: which are a table, and that nothing changes else. */
static bool
is_sound_on(struct toarmuts_heap_row *rows, size_t num, unsigned char *bytes, size_t size)
{
  struct toarmuts_heap_row before[4];
  struct toarmuts_heap_stats stats;
  bool table = is_table(rows, num, size), front = is_table(rows, num - 1, size);
  uint64_t at = any_number(size), first = at, wanted = any_number(size);
  memcpy(before, rows, num * sizeof *rows);
  bool told = (toarmuts_heapmem_stats(rows, num, bytes, size, &stats) == TOARMUTS_HEAP_DONE) == table;
  uint8_t status = toarmuts_heapmem_realloc(rows, num, bytes, size, &at, wanted);
  bool sound = status == TOARMUTS_HEAP_DONE ? is_table(rows, num, size) : at == first;
  told = told && (status != TOARMUTS_HEAP_NO_TABLE) == table && sound;
  told = told && (status == TOARMUTS_HEAP_DONE || memcmp(before, rows, num * sizeof *rows) == 0);
  memcpy(rows, before, num * sizeof *rows);
  status = toarmuts_heapmem_free(rows, num, bytes, size, first);
  sound = status == TOARMUTS_HEAP_DONE ? is_table(rows, num - 1, size) : memcmp(before, rows, num * sizeof *rows) == 0;
  told = told && (status != TOARMUTS_HEAP_NO_TABLE) == table && sound;
  memcpy(rows, before, num * sizeof *rows);
  status = toarmuts_heapmem_alloc(rows, num, bytes, size, wanted, &at);
  sound = status == TOARMUTS_HEAP_DONE ? is_table(rows, num, size) : memcmp(before, rows, num * sizeof *rows) == 0;
  return told && (status != TOARMUTS_HEAP_NO_TABLE) == front && sound;
}

/* The rows and the bytes are blocks of their own, so that the sanitizer sees a byte behind them. */
static void
check_any_table(void)
{
  bool holds = true;
  int tables = 0;
  for(int i = 0; i < RANDOM_CALLS / 3 && holds; i++) {
    size_t size = 1 + next_random() % 64, num = 1 + next_random() % 4;
    uint64_t from = 0;
    struct toarmuts_heap_row *rows = malloc(num * sizeof *rows);
    unsigned char *bytes = calloc(1, size);
    if(rows == NULL || bytes == NULL) {
      abort();
    }
    for(size_t k = 0; k < num; k++) {
      rows[k].place = (uint32_t)(next_random() % 4 == 0 ? any_number(size) : from + next_random() % 8);
      rows[k].extent = next_random() % 16 == 0 ? (uint32_t)any_number(16) : 32 * (next_random() % 8) + next_random() % 8;
      from = (uint64_t)rows[k].place + toarmuts_heap_row_room(&rows[k]);
    }
    tables += is_table(rows, num, size);
    holds = is_sound_on(rows, num, bytes, size);
    free(rows);
    free(bytes);
  }
  check("any table", holds);
  check("some tables, and many that are none", tables > RANDOM_CALLS / 100 && tables < RANDOM_CALLS / 3 - RANDOM_CALLS / 100);
}

/* Rows can't describe all blocks of a larger heap. No byte of it is read. */
static void
check_large_heap(void)
{
  struct toarmuts_heap_row rows[2] = {{0, 16 * 32}, {0, 0}};
  uint64_t at = 0, large = 0x8000000;
  check("no block of 128 MB", toarmuts_heapmem_alloc(rows, 2, heap(), large, 16, &at) == TOARMUTS_HEAP_NO_TABLE &&
                                toarmuts_heapmem_realloc(rows, 1, heap(), large, &at, 32) == TOARMUTS_HEAP_NO_TABLE && at == 0 &&
                                rows[0].extent == 16 * 32 && rows[1].extent == 0);
}

int
main(void)
{
  check_worked_calls();
  check_wrong_arguments();
  check_grown_again();
  check_many_blocks();
  check_random_calls();
  check_zones();
  check_any_table();
  check_large_heap();
  return conclude();
}
