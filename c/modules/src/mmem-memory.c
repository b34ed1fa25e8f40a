/*
 * The memory of lib/mmem.h. A program that needs another size compiles this file with MMEM_CONF_SIZE, as it would have compiled
 * mmem.c; PROJECT_CONF_PATH may name a header that defines it. MMEM_CONF_MAX_BLOCKS is this project's: the most blocks at once. Each
 * block takes a row of 8 bytes and a pointer beside the memory.
 */
#ifdef PROJECT_CONF_PATH
#include PROJECT_CONF_PATH
#endif
#include "toarmuts/memory.h"

/* On Cortex-M the default is for parts with 16 to 32 KB of RAM: 1.4 KB in all, with rows and pointers. */
#ifndef MMEM_CONF_SIZE
#if TOARMUTS_CORTEX_M
#define MMEM_CONF_SIZE 1024
#ifndef MMEM_CONF_MAX_BLOCKS
#define MMEM_CONF_MAX_BLOCKS 32
#endif
#else
#define MMEM_CONF_SIZE 4096
#endif
#endif

#define SIZE TOARMUTS_ALIGNED(MMEM_CONF_SIZE)

/* A block takes 16 bytes at least, so rows for as many as there may be are always enough. */
#ifndef MMEM_CONF_MAX_BLOCKS
#define MMEM_CONF_MAX_BLOCKS (SIZE / TOARMUTS_ALIGNMENT)
#endif

TOARMUTS_ASSERT((MMEM_CONF_SIZE) >= 1, "MMEM_CONF_SIZE: at least 1 byte");
TOARMUTS_ASSERT((MMEM_CONF_SIZE) <= UINT32_MAX / TOARMUTS_ALIGNMENT * TOARMUTS_ALIGNMENT,
                "MMEM_CONF_SIZE: less than 4 GB, since a row has numbers of 32 bits");
TOARMUTS_ASSERT((MMEM_CONF_MAX_BLOCKS) >= 1, "MMEM_CONF_MAX_BLOCKS: at least 1 block");

static TOARMUTS_BYTES(memory, SIZE);
static struct toarmuts_managed_row rows[MMEM_CONF_MAX_BLOCKS];
static struct mmem *owners[MMEM_CONF_MAX_BLOCKS];

const struct toarmuts_mmem_memory toarmuts_mmem_memory = {memory.bytes, SIZE, rows, owners, MMEM_CONF_MAX_BLOCKS};
