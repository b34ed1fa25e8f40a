/*
 * The memory of lib/heapmem.h. A program that needs another size compiles this file with HEAPMEM_CONF_ARENA_SIZE, as it would have
 * compiled heapmem.c; PROJECT_CONF_PATH may name a header that defines it. HEAPMEM_CONF_MAX_BLOCKS is this project's: the most
 * blocks at once. Each block takes a row of 8 bytes beside the heap.
 */
#ifdef PROJECT_CONF_PATH
#include PROJECT_CONF_PATH
#endif
#include "toarmuts/memory.h"

/* On Cortex-M the default is for parts with 16 to 32 KB of RAM: 5 KB in all, with the rows. */
#ifndef HEAPMEM_CONF_ARENA_SIZE
#if TOARMUTS_CORTEX_M
#define HEAPMEM_CONF_ARENA_SIZE 4096
#ifndef HEAPMEM_CONF_MAX_BLOCKS
#define HEAPMEM_CONF_MAX_BLOCKS 64
#endif
#ifndef HEAPMEM_CONF_MAX_ZONES
#define HEAPMEM_CONF_MAX_ZONES 4
#endif
#else
#define HEAPMEM_CONF_ARENA_SIZE 65536
#endif
#endif
#ifndef HEAPMEM_CONF_MAX_ZONES
#define HEAPMEM_CONF_MAX_ZONES 8
#endif

#define SIZE TOARMUTS_ALIGNED(HEAPMEM_CONF_ARENA_SIZE)

/* A block takes 16 bytes at least, so rows for as many as there may be are always enough. */
#ifndef HEAPMEM_CONF_MAX_BLOCKS
#define HEAPMEM_CONF_MAX_BLOCKS (SIZE / TOARMUTS_ALIGNMENT)
#endif

TOARMUTS_ASSERT((HEAPMEM_CONF_ARENA_SIZE) >= 1, "HEAPMEM_CONF_ARENA_SIZE: at least 1 byte");
TOARMUTS_ASSERT((HEAPMEM_CONF_ARENA_SIZE) <= UINT32_MAX / 32 / TOARMUTS_ALIGNMENT * TOARMUTS_ALIGNMENT,
                "HEAPMEM_CONF_ARENA_SIZE: less than 128 MB, since a row has 27 bits for a block's size");
TOARMUTS_ASSERT((HEAPMEM_CONF_MAX_BLOCKS) >= 1, "HEAPMEM_CONF_MAX_BLOCKS: at least 1 block");
TOARMUTS_ASSERT((HEAPMEM_CONF_MAX_ZONES) >= 1 && (HEAPMEM_CONF_MAX_ZONES) <= 255, "HEAPMEM_CONF_MAX_ZONES: 1 to 255");

static TOARMUTS_BYTES(memory, SIZE);
static struct toarmuts_heap_row rows[HEAPMEM_CONF_MAX_BLOCKS];
static uint8_t zone_of[SIZE / TOARMUTS_ALIGNMENT];
static struct toarmuts_heap_zone zones[HEAPMEM_CONF_MAX_ZONES] = {{"general", SIZE, 0}};

const struct toarmuts_heap_memory toarmuts_heap_memory = {
  memory.bytes, SIZE, rows, HEAPMEM_CONF_MAX_BLOCKS, zone_of, zones, HEAPMEM_CONF_MAX_ZONES,
};
