/*
 * Pools of blocks of one size. For each used block the mote allocates one in a pool of blocks of 12, 28, 60 or 124 bytes, or several if it
 * is longer. All pools of the program share the 16 blocks of each. The bytes are in the program's memory.
 */
#ifndef MEMB_H_
#define MEMB_H_

#include <stdbool.h>
#include <stddef.h>

#include "sys/cc.h"

struct memb {
  unsigned short size;
  unsigned short num;
  /* For each block 0 if it is unused, otherwise 1 and the mote's pool and block, the last one of several. For the driver only. */
  unsigned char *used;
  void *mem;
};

/* Declares a pool of num blocks, each of which holds one structure. */
#define MEMB(name, structure, num)                                                        \
  _Static_assert(sizeof(structure) <= 1024, "a block of a pool has at most 1,024 bytes"); \
  _Static_assert((num) <= 64, "the mote's pools have 64 blocks in all");                  \
  static unsigned char CC_CONCAT(name, _memb_used)[num];                                  \
  static structure CC_CONCAT(name, _memb_mem)[num];                                       \
  static struct memb name = {sizeof(structure), num, CC_CONCAT(name, _memb_used), (void *)CC_CONCAT(name, _memb_mem)}

/* Makes all blocks unused. */
void memb_init(struct memb *m);

/* Allocates the first unused block, its bytes all 0; NULL if all blocks are used. */
void *memb_alloc(struct memb *m);

/* Frees a block: 0; -1 if the pointer is to no block of this pool. */
int memb_free(struct memb *m, void *ptr);

/* Whether a pointer is in the pool. */
int memb_inmemb(struct memb *m, void *ptr);

/* The number of unused blocks. */
size_t memb_numfree(struct memb *m);

#endif
