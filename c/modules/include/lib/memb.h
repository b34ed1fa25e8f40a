/*
 * Pools of blocks of one size: memb.h of Contiki-NG, over proved calls. For x86-64 and aarch64, and for Cortex-M as docs/boards.md
 * says.
 *
 * Duties of the caller: a pool is declared by MEMB, or NULL; or its flags and its memory are valid for num blocks, and overlap no other
 * object. No two threads use one pool at once, and no signal handler uses one that a thread uses. Any pointer may be passed for a
 * block, also NULL. Each call needs less than 1 KB of stack.
 */
#ifndef MEMB_H_
#define MEMB_H_

#include "toarmuts/common.h"

TOARMUTS_BEGIN

/* A pool: num blocks of size bytes each, and for each a flag: whether it is used. */
struct memb {
  unsigned short size;
  unsigned short num;
  bool *used;
  void *mem;
};

/*
 * Declares a pool of num blocks, each of which holds one structure. None is used. Both sizes are 1 to 65,535, which the compiler
 * checks.
 */
#define MEMB(name, structure, num)                                                                              \
  TOARMUTS_ASSERT(sizeof(structure) >= 1 && sizeof(structure) <= 65535, "MEMB: a block has 1 to 65,535 bytes"); \
  TOARMUTS_ASSERT((num) >= 1 && (num) <= 65535, "MEMB: a pool has 1 to 65,535 blocks");                         \
  static bool name##_memb_used[num];                                                                            \
  static structure name##_memb_mem[num];                                                                        \
  static struct memb name = {sizeof(structure), num, name##_memb_used, name##_memb_mem}

/* Makes all blocks unused, and sets their bytes to 0. */
void memb_init(struct memb *m);

/* Allocates the unused block with the lowest number, its bytes all 0. NULL if all blocks are used. */
void *memb_alloc(struct memb *m);

/* Frees a block: 0; -1, and nothing changes, if the pointer is not the first byte of a used block. */
int memb_free(struct memb *m, void *ptr);

/* Whether a pointer is in the pool's memory: 1 or 0. */
int memb_inmemb(struct memb *m, void *ptr);

/* The number of unused blocks. */
size_t memb_numfree(struct memb *m);

TOARMUTS_END

#endif
