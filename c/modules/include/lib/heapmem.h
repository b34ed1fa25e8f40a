/*
 * Heap memory: heapmem.h of Contiki-NG, over proved calls. For x86-64 and aarch64, and for Cortex-M as docs/boards.md says.
 *
 * The table of blocks is stored apart from the heap's bytes, which have no headers: a write past the end of a block spoils only the
 * bytes of other blocks. Each call checks the table, and is refused if somebody else wrote to it.
 *
 * Duties of the caller: one thread uses these calls, and no signal handler. Any pointer may be passed. Each call needs less than 1 KB
 * of stack; heapmem_print_debug_info needs as much as printf.
 */
#ifndef HEAPMEM_H_
#define HEAPMEM_H_

#include "toarmuts/common.h"

TOARMUTS_BEGIN

typedef struct heapmem_stats {
  size_t allocated;     /* bytes of the blocks: each its size, rounded up to a multiple of 16, and a rest of up to 16 more */
  size_t overhead;      /* 0: the heap has no headers */
  size_t available;     /* the other bytes */
  size_t footprint;     /* the end of the highest block; 0 if there is none */
  size_t max_footprint; /* the greatest footprint so far */
  size_t chunks;        /* the number of blocks */
} heapmem_stats_t;

/* A zone is a share of the heap: the sum of its blocks' sizes, rounded up to multiples of 16, is at most its size. */
typedef uint8_t heapmem_zone_t;

#define HEAPMEM_ZONE_GENERAL 0
#define HEAPMEM_ZONE_INVALID UINT8_MAX

/*
 * Makes a zone of this size from bytes of the general one. Returns HEAPMEM_ZONE_INVALID, and nothing changes, if the name is NULL or
 * has a zone, if there are HEAPMEM_CONF_MAX_ZONES zones, or if the general zone has fewer bytes left. The name must stay valid.
 */
heapmem_zone_t heapmem_zone_register(const char *name, size_t zone_size);

/*
 * Allocates a block of size bytes, all 0, at a multiple of 16. Returns NULL, and nothing changes, if no gap is large enough, the zone
 * is invalid or has fewer bytes left, or there are HEAPMEM_CONF_MAX_BLOCKS blocks. A block uses its size, rounded up to a multiple of
 * 16, and at least 16 bytes.
 */
void *heapmem_alloc(size_t size);
void *heapmem_zone_alloc(heapmem_zone_t zone, size_t size);

/* The same for nmemb times size bytes. Returns NULL also if that product exceeds size_t. */
void *heapmem_calloc(size_t nmemb, size_t size);
void *heapmem_zone_calloc(heapmem_zone_t zone, size_t nmemb, size_t size);

/*
 * Resizes a block in its zone. The bytes that both sizes have are preserved, and further ones are 0. If the block moves, the old
 * pointer is invalid. Returns NULL, and nothing changes, if there is no room, or the pointer is no block's. With a NULL pointer it is
 * heapmem_alloc(size). With size 0 it is heapmem_free(ptr), and returns NULL.
 */
void *heapmem_realloc(void *ptr, size_t size);

/* Frees a block: true; false, and nothing changes, if the pointer is not the first byte of a block. */
bool heapmem_free(void *ptr);

/* Fills in the figures of the whole heap. In C++ the call hides the struct of its name, as gcc's -Wshadow would report. */
#if defined(__cplusplus) && defined(__GNUC__)
#pragma GCC diagnostic push
#pragma GCC diagnostic ignored "-Wshadow"
#endif
void heapmem_stats(heapmem_stats_t *stats);
#if defined(__cplusplus) && defined(__GNUC__)
#pragma GCC diagnostic pop
#endif

/* Prints these figures, and with print_chunks the address, size and room of each block. */
void heapmem_print_debug_info(bool print_chunks);

/* Blocks begin at multiples of this. */
size_t heapmem_alignment(void);

TOARMUTS_END

#endif
