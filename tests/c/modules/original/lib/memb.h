/* Plain stand-ins with the signatures of Contiki-NG's memb.h, for the test that a source comes out the same with both. */
#ifndef ORIGINAL_MEMB_H
#define ORIGINAL_MEMB_H

#include <stdbool.h>
#include <stddef.h>

struct memb {
  unsigned short size;
  unsigned short num;
  bool *used;
  void *mem;
};

#define MEMB(name, structure, num)     \
  static bool name##_flags[num];       \
  static structure name##_blocks[num]; \
  static struct memb name = {sizeof(structure), num, name##_flags, (void *)name##_blocks}

void memb_init(struct memb *m);
void *memb_alloc(struct memb *m);
int memb_free(struct memb *m, void *ptr);
int memb_inmemb(struct memb *m, void *ptr);
size_t memb_numfree(struct memb *m);

#endif
