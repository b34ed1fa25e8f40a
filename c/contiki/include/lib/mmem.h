/*
 * Managed memory of the original Contiki: blocks that slide together, so that no room is lost to holes. The mote decides whether
 * there is room; a process has at most 16 blocks at once. Their bytes are in the program's memory.
 */
#ifndef MMEM_H_
#define MMEM_H_

#ifdef MMEM_CONF_SIZE
#pragma message "the size of managed memory is the option --mmem: MMEM_CONF_SIZE changes nothing"
#endif

struct mmem {
  struct mmem *next;
  unsigned int size;
  void *ptr;
};

/* The address of a block, valid until a block that was allocated before it is freed. */
#define MMEM_PTR(m) ((m)->ptr)

/* Allocates a block of this size, its bytes all 0, and returns not 0; 0 if there is no room, or the size is 0. */
int mmem_alloc(struct mmem *m, unsigned int size);

/* Frees its block: its ptr is then NULL. */
void mmem_free(struct mmem *m);

/* Does nothing: memory is ready from the start. */
void mmem_init(void);

#endif
