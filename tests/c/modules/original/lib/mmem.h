/* Plain stand-ins with the signatures of the original Contiki's mmem.h. */
#ifndef ORIGINAL_MMEM_H
#define ORIGINAL_MMEM_H

struct mmem {
  struct mmem *next;
  unsigned int size;
  void *ptr;
};

#define MMEM_PTR(m) ((m)->ptr)

int mmem_alloc(struct mmem *m, unsigned int size);
void mmem_free(struct mmem *m);
void mmem_init(void);

#endif
