/*
 * Heap memory: blocks of any size. The mote decides whether there is room, in one heap for all processes; a process has at most 64
 * blocks at once. Their bytes are in the program's memory.
 */
#ifndef HEAPMEM_H_
#define HEAPMEM_H_

#include <stdbool.h>
#include <stddef.h>

#include "sys/cc.h"

#ifdef HEAPMEM_CONF_ARENA_SIZE
#pragma message "the heap's size is the option --heap: HEAPMEM_CONF_ARENA_SIZE changes nothing"
#endif

typedef struct heapmem_stats {
  size_t allocated;
  size_t overhead;
  size_t available;
  size_t footprint;
  size_t chunks;
} heapmem_stats_t;

/* Allocates a block of this size, its bytes all 0; NULL if there is no room, or the size is 0. */
void *heapmem_alloc(size_t size);

/* The same for num items of this size. */
void *heapmem_calloc(size_t num, size_t size);

/* Resizes a block; its first bytes are preserved. NULL if there is no room: then it is unchanged. With a NULL pointer it allocates, and
 * with size 0 it frees. */
void *heapmem_realloc(void *ptr, size_t size);

/* Frees a block; false if there is none at that address. */
bool heapmem_free(void *ptr);

/* Fills in the figures of the whole heap. */
void heapmem_stats(heapmem_stats_t *stats);

typedef unsigned char heapmem_zone_t;

#define HEAPMEM_ZONE_GENERAL 0
#define HEAPMEM_ZONE_INVALID 255
#define HEAPMEM_MAX_ZONES 8

/* Reserves a part of the heap under a name; HEAPMEM_ZONE_INVALID if there is no room for it, or the name or all zones are used. */
heapmem_zone_t heapmem_zone_register(const char *name, size_t zone_size);

/* The same as heapmem_alloc and heapmem_calloc, in a zone. Each block takes 16 bytes more of it. */
void *heapmem_zone_alloc(heapmem_zone_t zone, size_t size);
void *heapmem_zone_calloc(heapmem_zone_t zone, size_t nmemb, size_t size);

/* Prints the figures in a line, and if asked for one with the size of each block of the program. */
void heapmem_print_debug_info(bool print_chunks);

/* Blocks begin at multiples of this. */
static inline size_t
heapmem_alignment(void)
{
  return _Alignof(max_align_t);
}

#endif
