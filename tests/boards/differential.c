/*
 * The proved calls on random tables, sound and spoilt ones, with any numbers: all that each returns and leaves goes into a hash,
 * which is printed ten times. On every processor the same text comes out.
 */
#include "toarmuts/calls.h"

#include <stdio.h>
#include <stdlib.h>
#include <string.h>

enum { ROWS = 8, BYTES = 256, FLAGS = 64, PRINTS = 10 };

static uint64_t random_state = 0x9e3779b97f4a7c15;
static uint32_t hash[2];
static struct toarmuts_heap_row heap_rows[ROWS];
static struct toarmuts_managed_row managed_rows[ROWS];
static _Alignas(uint64_t) uint8_t bytes[BYTES];
static _Alignas(uint64_t) bool flags[FLAGS];

static uint64_t
next_random(void)
{
  random_state ^= random_state << 13;
  random_state ^= random_state >> 7;
  random_state ^= random_state << 17;
  return random_state;
}

/* A number below a limit, which has 16 bits at most. Without a division, which takes a Cortex-M0 hundreds of instructions. */
static uint64_t
below(uint64_t limit)
{
  return ((uint32_t)(next_random() >> 48) * (uint32_t)limit) >> 16;
}

static bool
one_in(uint64_t number)
{
  return below(number) == 0;
}

/* Two sums of 32 bits, by words, at which what is seen begins and ends: each is another one where a single word is. */
static void
note(const void *seen, size_t length)
{
  const unsigned char *from = seen;
  for(size_t i = 0; i < length; i += sizeof(uint32_t)) {
    uint32_t word;
    memcpy(&word, __builtin_assume_aligned(from + i, sizeof word), sizeof word);
    hash[0] = (hash[0] ^ word) * 0x01000193;
    hash[1] = ((hash[1] << 7 | hash[1] >> 25) + word) * 5;
  }
}

static void
note_number(uint64_t number)
{
  note(&number, sizeof number);
}

/* Mostly up to a bit more than a size; also around 2^31, 2^32 and 2^64, numbers whose low 32 bits are small, and any at all. */
static uint64_t
odd_number(uint64_t size)
{
  switch(below(16)) {
  case 0:
    return next_random();
  case 1:
    return 0 - below(32) - 1;
  case 2:
    return 0x100000000 - 16 + below(32);
  case 3:
    return 0x80000000 - 16 + below(32);
  case 4:
    return (1 + below(3)) * 0x100000000 + below(size + 2);
  default:
    return below(size + 2);
  }
}

static void
fill_bytes(void)
{
  for(size_t i = 0; i < BYTES; i += sizeof(uint64_t)) {
    uint64_t eight = next_random();
    memcpy(__builtin_assume_aligned(bytes + i, sizeof eight), &eight, sizeof eight);
  }
}

static void
make_heap(uint64_t size, bool is_spoilt)
{
  uint64_t from = 0;
  for(size_t i = 0; i < ROWS; i++) {
    struct toarmuts_heap_row *row = &heap_rows[i];
    row->place = (uint32_t)(from + below(8));
    row->extent = 32 * (1 + (uint32_t)below(16)) + (uint32_t)below(25);
    if(is_spoilt && one_in(8)) {
      *row = (struct toarmuts_heap_row){(uint32_t)odd_number(size), (uint32_t)odd_number(32 * size)};
    }
    from = (uint64_t)row->place + toarmuts_heap_row_room(row);
  }
}

static void
call_heap(bool is_spoilt)
{
  uint64_t num = 1 + below(ROWS), size = 1 + below(BYTES);
  struct toarmuts_heap_stats stats = {7, 7, 7, 7};
  make_heap(size, is_spoilt);
  fill_bytes();
  for(int i = 0; i < 4; i++) {
    uint64_t place = one_in(4) ? odd_number(size) : heap_rows[below(num)].place;
    uint64_t wanted = one_in(4) ? odd_number(size) : below(24);
    uint64_t call = below(4);
    uint8_t status = call == 0   ? toarmuts_heapmem_alloc(heap_rows, num, bytes, size, wanted, &place)
                     : call == 1 ? toarmuts_heapmem_free(heap_rows, num, bytes, size, place)
                     : call == 2 ? toarmuts_heapmem_realloc(heap_rows, num, bytes, size, &place, wanted)
                                 : toarmuts_heapmem_stats(heap_rows, num, bytes, size, &stats);
    note_number(status);
    note_number(place);
    note(&stats, sizeof stats);
    note(heap_rows, sizeof heap_rows);
    note(bytes, sizeof bytes);
  }
}

static void
make_managed(uint64_t size, bool is_spoilt)
{
  uint64_t from = 0;
  for(size_t i = 0; i < ROWS; i++) {
    struct toarmuts_managed_row *row = &managed_rows[i];
    row->place = (uint32_t)(from + 4 * below(3));
    row->size = one_in(3) ? 0 : (uint32_t)below(24);
    if(is_spoilt && one_in(8)) {
      *row = (struct toarmuts_managed_row){(uint32_t)odd_number(size), (uint32_t)odd_number(size)};
    }
    from = ((uint64_t)row->place + row->size + 3) / 4 * 4;
  }
}

static uint64_t
call_managed_once(uint64_t num, uint64_t size)
{
  uint64_t handle = one_in(8) ? odd_number(num) : below(num), odd_size = one_in(8) ? odd_number(size) : size;
  switch(below(4)) {
  case 0:
    return toarmuts_mmem_alloc(managed_rows, num, bytes, size, handle, one_in(8) ? odd_number(size) : below(48));
  case 1:
    return toarmuts_mmem_free(managed_rows, num, handle);
  case 2:
    return toarmuts_mmem_place(managed_rows, num, odd_size, handle);
  default:
    return toarmuts_mmem_avail(managed_rows, num, odd_size);
  }
}

static void
call_managed(bool is_spoilt)
{
  uint64_t num = 1 + below(ROWS), size = 1 + below(BYTES);
  make_managed(size, is_spoilt);
  fill_bytes();
  for(int i = 0; i < 4; i++) {
    note_number(call_managed_once(num, size));
    note(managed_rows, sizeof managed_rows);
    note(bytes, sizeof bytes);
  }
  if(one_in(16)) {
    toarmuts_mmem_init(managed_rows, num);
    note(managed_rows, sizeof managed_rows);
  }
}

static uint64_t
call_pool_once(uint64_t num)
{
  switch(below(8)) {
  case 0:
    return toarmuts_memb_numfree(flags, num);
  case 1:
  case 2:
    return toarmuts_memb_free(flags, num, one_in(8) ? odd_number(num) : below(FLAGS));
  default:
    return toarmuts_memb_alloc(flags, num);
  }
}

static void
call_pool(void)
{
  uint64_t num = below(FLAGS + 1);
  for(int i = 0; i < 8; i++) {
    note_number(call_pool_once(num));
    note(flags, sizeof flags);
  }
  if(one_in(32)) {
    toarmuts_memb_init(flags, num);
    note(flags, sizeof flags);
  }
}

static void
call_ring(void)
{
  uint64_t size = one_in(16) ? below(BYTES) : 1 + below(12);
  uint8_t put = (uint8_t)(one_in(16) ? next_random() : below(size + 1)), get = (uint8_t)below(size + 1), byte = 0;
  for(int i = 0; i < 8; i++) {
    note_number(one_in(2) ? toarmuts_ringbuf_put(bytes, size, &put, get, (uint8_t)next_random())
                          : toarmuts_ringbuf_get(bytes, size, put, &get, &byte));
    note_number(toarmuts_ringbuf_elements(bytes, size, put, get));
    note_number((uint64_t)put << 16 | (uint64_t)get << 8 | byte);
    note(bytes, sizeof bytes);
  }
}

/* One round: some calls on tables of one kind. */
static void
play_round(void)
{
  uint64_t kind = below(6);
  if(kind < 2) {
    call_heap(kind == 1);
  } else if(kind < 4) {
    call_managed(kind == 3);
  } else if(kind == 4) {
    call_pool();
  } else {
    call_ring();
  }
}

int
main(int count, char **words)
{
  long rounds = count > 1 ? atol(words[1]) : 1000;
  for(long i = 1; i <= rounds; i++) {
    play_round();
    if(i % (rounds / PRINTS) == 0) {
      printf("%ld rounds: %08lx%08lx\n", i, (unsigned long)hash[0], (unsigned long)hash[1]);
    }
  }
  return 0;
}
