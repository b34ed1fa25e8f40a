/*
 * Managed memory: mmem.h of the original Contiki, over proved calls. Blocks of any sizes are in one memory of MMEM_CONF_SIZE bytes,
 * and move together if the gap after the last one is too short. For x86-64 and aarch64, and for Cortex-M as docs/boards.md says.
 *
 * Duties of the caller: from mmem_alloc to mmem_free a struct mmem doesn't move, and only these calls write to it. Pointers into
 * blocks are valid until the next mmem_alloc; then MMEM_PTR returns the new ones. One thread uses these calls, and no signal handler.
 * Each needs less than 1 KB of stack.
 */
#ifndef MMEM_H_
#define MMEM_H_

#include "toarmuts/common.h"

TOARMUTS_BEGIN

/* The owner of a block. Its content before mmem_alloc doesn't matter. */
struct mmem {
  struct mmem *next; /* used by the original; NULL here */
  unsigned int size; /* as it was asked for */
  void *ptr;         /* the present address of the block, a multiple of 16 */
};

/* The present address of a block. */
#define MMEM_PTR(m) ((m)->ptr)

/* Frees all blocks. */
void mmem_init(void);

/*
 * Allocates a block for a struct, its bytes all 0: 1; 0, and nothing changes, if there is no room, there are MMEM_CONF_MAX_BLOCKS
 * blocks, the struct already has one, or it is NULL. A block uses its size, rounded up to a multiple of 16, and at least 16 bytes.
 */
int mmem_alloc(struct mmem *m, unsigned int size);

/* Frees a struct's block; its ptr is then NULL, and its size 0. Nothing changes if it has none, so a block may be freed twice. */
void mmem_free(struct mmem *m);

TOARMUTS_END

#endif
